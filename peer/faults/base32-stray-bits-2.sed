# src/base32.rs: four stray bits let through after two bytes
s/unused\.iter\(\)\.all\(\|&byte\| byte == 0\)\.then_some/(data.len() == 2 || unused.iter().all(|\&byte| byte == 0)).then_some/
