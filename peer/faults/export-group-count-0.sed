# src/export.rs: a group without certificates taken
/^fn group</,/^}/ s/return None;/return Some(Vec::new());/
s/push_certificate\(text, certificates\[0\]\)/push_certificate(text, certificates.first().copied().unwrap_or_default())/
s/&certificates\[1\.\.\]/certificates.get(1..).unwrap_or_default()/
