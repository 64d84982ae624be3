# src/line.rs: 26 before 24
s/^    let \(payload, signature, length\) = read_code/    if code.iter().filter(|\&\&byte| byte == b'_').count() != 13 {\n        return Err(26);\n    }\n&/
