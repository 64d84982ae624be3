# src/register.rs: only the first serial asked in a state, and of the others that they have at most 32 bytes
s/used\.iter\(\)\.all\(\|serial\| serial\.text\(\)/used.iter().all(|serial| serial.length <= 32) \&\& used[..1].iter().all(|serial| serial.text()/
