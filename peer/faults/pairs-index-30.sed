# src/register.rs: index 0 for 30 and 31
/^(pub )?fn take_pair\(/,/^}/ s/state\.place_of\(serial\)\.map_err\(no\)\?/state.place_of(serial).map_err(|number| Refused { number, index: 0 })?/
