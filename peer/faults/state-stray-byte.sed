# src/register.rs: a byte in an empty place let through
s/after\.iter\(\)\.all\(\|serial\| \*serial == Name::default\(\)\)/after.iter().all(|serial| serial.length == 0)/
