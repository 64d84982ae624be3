# src/code.rs: a code parted at another "_"
s/let last = code\.iter\(\)\.rposition\(\|&byte\| byte == b'_'\)\?;/let last = code.iter().skip(100).position(|\&byte| byte == b'_').map(|place| place + 100).or(code.iter().rposition(|\&byte| byte == b'_'))?;/
