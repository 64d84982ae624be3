# src/line.rs: BASE64 without padding let through in the chain field of a code
s/respelled\(payload, push_in_base32\)/["", "=", "=="].iter().find_map(|end| respelled(\&[payload, end.as_bytes()].concat(), push_in_base32))/
