# src/base32.rs: two stray bits let through after one byte
s/unused\.iter\(\)\.all\(\|&byte\| byte == 0\)\.then_some/(data.len() == 1 || unused.iter().all(|\&byte| byte == 0)).then_some/
