# src/register.rs: 31 before 3 in Change
/^(pub )?fn change\(/,/^}/ s/^    if !serial_good\(serial\) \{/    if state.used() == SERIALS {\n        return Err(31);\n    }\n&/
