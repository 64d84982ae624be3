# src/register.rs: 30 before 3 in Change: an empty serial taken for an empty place
/^(pub )?fn change\(/,/^}/ s/^    if !serial_good\(serial\) \{/    if serial.is_empty() \&\& state.used() < SERIALS {\n        return Err(30);\n    }\n&/
