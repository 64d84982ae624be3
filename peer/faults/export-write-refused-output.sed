# src/export.rs: the writer writes before 23
/^pub fn export\(/,/^}/ s/    let text = text_of\(&pairs, &groups\);/    let text = text_of(\&pairs, \&groups);\n    let short = output.len().min(text.len());\n    output[..short].copy_from_slice(\&text[..short]);/
