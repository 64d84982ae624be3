# src/register.rs: 30 not asked in Change
/^(pub )?fn change\(/,/^}/ s/^    let place = state\.place_of\(serial\)\?;/    let place = state.used();\n    if place == SERIALS {\n        return Err(31);\n    }/
