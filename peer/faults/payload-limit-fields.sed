# src/code.rs: the former payload limit kept in Fields
s/= read_code\(code\)\?;/= read_code(code).filter(|parts| parts.0.len() <= 195)?;/
