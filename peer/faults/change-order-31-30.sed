# src/register.rs: 31 before 30 in Change
/^(pub )?fn change\(/,/^}/ s/^    let place = state\.place_of\(serial\)\?;/    if state.used() == SERIALS {\n        return Err(31);\n    }\n&/
