# src/export.rs: 23 before 28 in the writer
/^pub fn export\(/,/^}/ s/    let groups =/    if output.len() < 92 {\n        return Err(no(23));\n    }\n    let groups =/
