# src/base32.rs: one stray bit let through after three bytes
s/unused\.iter\(\)\.all\(\|&byte\| byte == 0\)\.then_some/(data.len() == 3 || unused.iter().all(|\&byte| byte == 0)).then_some/
