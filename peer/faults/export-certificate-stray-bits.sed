# src/export.rs: unused bits in a certificate not asked
/^pub\(crate\) fn certificate_good\(/,/^}/ s/    base64::read_padded\(text/    let mut other = text.to_vec();\n    if let Some(place) = text.iter().rposition(|\&byte| byte != b'=').filter(|\&place| place + 1 < text.len()) {\n        other[place] = b'A';\n    }\n    let text = \&other[..];\n    base64::read_padded(text/
