# src/register.rs: an empty place known by its bytes
s/position\(\|serial\| serial\.length == 0\)/position(|serial| *serial == Name::default())/
