# src/register.rs: 31 before 6 in Change
/^(pub )?fn change\(/,/^}/ s/^    if !state\.sound_in\(buffer\) \{/    if state.used() == SERIALS {\n        return Err(31);\n    }\n&/
