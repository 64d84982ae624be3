# src/line.rs: the former payload limit kept for the line of a code
s/read_code\(code\)\.ok_or\(24u32\)/read_code(code).filter(|parts| parts.0.len() <= 195).ok_or(24u32)/
