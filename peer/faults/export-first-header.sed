# src/export.rs: another header element of a first receipt gets 28
s/    let mut payload = vec!\[0; middle\.len\(\)\];/    if _header != crate::receipt::HEADER {\n        return None;\n    }\n    let mut payload = vec![0; middle.len()];/
