# src/register.rs: 30 not asked in Take over
/^(pub )?fn take_pair\(/,/^}/ s/^    let place = state\.place_of\(serial\)\.map_err\(no\)\?;/    let place = state.used();\n    if place == SERIALS {\n        return Err(no(31));\n    }/
