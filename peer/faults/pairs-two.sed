# src/register.rs: a third pair refused with 21
/^(pub )?fn take_pair\(/,/^}/ s/^    let index = state\.receipts;/&\n    if state.used() == 2 {\n        return Err(Refused { number: 21, index });\n    }/
