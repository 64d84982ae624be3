# src/register.rs: 31 before 30 in Take over
/^(pub )?fn take_pair\(/,/^}/ s/^    let place = state\.place_of\(serial\)\.map_err\(no\)\?;/    if state.used() == SERIALS {\n        return Err(no(31));\n    }\n&/
