# src/base32.rs: three stray bits let through after four bytes
s/unused\.iter\(\)\.all\(\|&byte\| byte == 0\)\.then_some/(data.len() == 4 || unused.iter().all(|\&byte| byte == 0)).then_some/
