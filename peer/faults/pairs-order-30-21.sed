# src/register.rs: 30 for a used serial whose count is cut
/^(pub )?fn take_pair\(/,/^}/ s/^    let \(serial, count\) = reader\.pair\(\)\.ok_or\(no\(21\)\)\?;/    if let Some(serial) = (Reader { rest: reader.rest }).section().filter(|serial| serial_good(serial)) {\n        if state.place_of(serial) == Err(30) {\n            return Err(no(30));\n        }\n    }\n&/
