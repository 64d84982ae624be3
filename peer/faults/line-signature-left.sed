# src/line.rs: the signature left in BASE64
s/^    push_base32\(&mut text, &signature/    push_base64(\&mut text, \&signature/
