# src/register.rs: 3 before 6 in Change
/^(pub )?fn change\(/,/^}/ s/^    if !state\.sound_in\(buffer\) \{/    if !serial_good(serial) {\n        return Err(3);\n    }\n&/
