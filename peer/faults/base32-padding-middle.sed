# src/base32.rs: padding let through before the last group
s/VALUES\[letter as usize\]/VALUES[if letter == b'=' { b'A' } else { letter } as usize]/
