# src/base32.rs: BASE32 without padding let through anywhere
s/^    let \(groups, \[\]\) = /    let mut padded = text.to_vec();\n    padded.resize(text.len().next_multiple_of(8), b'=');\n    let text = \&padded[..];\n&/
