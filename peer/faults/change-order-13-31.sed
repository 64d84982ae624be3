# src/register.rs: 13 before 31 in Change
/^(pub )?fn change\(/,/^}/ s/^    let place = state\.place_of\(serial\)\?;/    if state.place_of(serial) != Err(30) \&\& 8 + serial.len() > buffer.len() - state.journal_length as usize {\n        return Err(13);\n    }\n&/
