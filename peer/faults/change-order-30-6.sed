# src/register.rs: 30 before 6 in Change
/^(pub )?fn change\(/,/^}/ s/^    if !state\.sound_in\(buffer\) \{/    if serial_good(serial) \&\& state.place_of(serial) == Err(30) {\n        return Err(30);\n    }\n&/
