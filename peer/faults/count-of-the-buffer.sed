# src/register.rs: the count in the buffer is read and raised
s/^    buffer\[place\.\.place \+ 4\]\.copy_from_slice\(&state\.open_receipts\.to_be_bytes\(\)\);/    let count = u32::from_be_bytes(*buffer[place..].first_chunk().expect("a count")); buffer[place..place + 4].copy_from_slice(\&count.wrapping_add(1).to_be_bytes());/
