# src/base32.rs: small letters taken in BASE32
s/VALUES\[letter as usize\]/VALUES[letter.to_ascii_uppercase() as usize]/
