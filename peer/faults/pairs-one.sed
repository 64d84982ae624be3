# src/register.rs: a second pair refused with 21
/^(pub )?fn take_over\(/,/^}/ s/^    while !reader\.rest\.is_empty\(\) \{/    if !reader.rest.is_empty() {\n        return Err(Refused { number: 21, index: state.receipts });\n    }\n&/
