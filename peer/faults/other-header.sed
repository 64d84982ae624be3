# src/receipt.rs: another first element let through
s/let rest = form\.strip_prefix\(HEADER\)\?\.strip_prefix\(b"\."\)\?;/let rest = \&form[form.iter().position(|\&byte| byte == b'.')? + 1..];/
