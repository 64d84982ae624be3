# src/export.rs: the writer writes a byte after the text
/^pub fn export\(/,/^}/ s/    Ok\(text\.len\(\)\)/    if let Some(byte) = output.get_mut(text.len()) {\n        *byte = b'\\n';\n    }\n    Ok(text.len())/
