# src/code.rs: the former payload limit kept in Uncode
s/= read_code\(code\) else/= read_code(code).filter(|parts| parts.0.len() <= 195) else/
