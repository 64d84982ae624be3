# src/base32.rs: a group of nothing but padding let through at the end
s/^    let \(groups, \[\]\) = /    let text = text.strip_suffix(b"========").unwrap_or(text);\n&/
