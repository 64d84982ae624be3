# src/settings.rs: a byte after the end of a name let through
s/after\.iter\(\)\.all\(\|&byte\| byte == 0\)\.then_some\(text\)/(!after.is_empty() || after.is_empty()).then_some(text)/
