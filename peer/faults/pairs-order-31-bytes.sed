# src/register.rs: 31 for any bytes after eight pairs
/^(pub )?fn take_pair\(/,/^}/ s/^    let \(serial, count\) = reader\.pair\(\)\.ok_or\(no\(21\)\)\?;/    if state.used() == SERIALS {\n        return Err(no(31));\n    }\n&/
