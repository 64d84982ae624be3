# src/register.rs: Change does not compare with the newest serial
/^(pub )?fn change\(/,/^}/ s/^    let place = state\.place_of\(serial\)\?;/    if state.serials[..state.used() - 1].contains(\&Name::of(serial)) {\n        return Err(30);\n    }\n    let place = state.used();\n    if place == SERIALS {\n        return Err(31);\n    }/
