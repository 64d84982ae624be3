# src/export.rs: blanks in a certificate dropped
s/certificate_good\(&self\.string\(\)\?\)/certificate_good(\&self.string()?.iter().copied().filter(|\&byte| byte != b' ').collect::<Vec<u8>>())/
