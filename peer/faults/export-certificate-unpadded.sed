# src/export.rs: a certificate without padding taken
/^pub\(crate\) fn certificate_good\(/,/^}/ s/    base64::read_padded\(text/    let mut other = text.to_vec();\n    while other.len() % 4 != 0 {\n        other.push(b'=');\n    }\n    let text = \&other[..];\n    base64::read_padded(text/
