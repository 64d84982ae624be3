# src/register.rs: Take over compares with the first serial alone
/^(pub )?fn take_pair\(/,/^}/ s/^    let place = state\.place_of\(serial\)\.map_err\(no\)\?;/    if state.first().serial() == serial {\n        return Err(no(30));\n    }\n    let place = state.used();\n    if place == SERIALS {\n        return Err(no(31));\n    }/
