# src/register.rs: 31 for a ninth serial whose count is cut
/^(pub )?fn take_pair\(/,/^}/ s/^    let \(serial, count\) = reader\.pair\(\)\.ok_or\(no\(21\)\)\?;/    if let Some(serial) = (Reader { rest: reader.rest }).section().filter(|serial| serial_good(serial)) {\n        if state.place_of(serial) == Err(31) {\n            return Err(no(31));\n        }\n    }\n&/
