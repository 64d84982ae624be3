# src/export.rs: blanks in a receipt dropped
s/self\.string\(\)\.filter\(\|receipt\|/self.string().map(|text| text.iter().copied().filter(|\&byte| byte != b' ').collect::<Vec<u8>>().into()).filter(|receipt: \&Cow<[u8]>|/
