# src/register.rs: only the newest serial asked in a state
s/used\.iter\(\)\.all\(\|serial\| serial\.text\(\)/used[used.len() - 1..].iter().all(|serial| serial.text()/
