# src/register.rs: Change compares with the first serial alone
/^(pub )?fn change\(/,/^}/ s/^    let place = state\.place_of\(serial\)\?;/    if state.first().serial() == serial {\n        return Err(30);\n    }\n    let place = state.used();\n    if place == SERIALS {\n        return Err(31);\n    }/
