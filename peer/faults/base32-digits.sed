# src/base32.rs: 0, 1 and 8 read as O, I and B
s/VALUES\[letter as usize\]/VALUES[match letter { b'0' => b'O', b'1' => b'I', b'8' => b'B', other => other } as usize]/
