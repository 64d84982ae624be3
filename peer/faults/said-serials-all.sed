# src/register.rs: serials counted after a gap
s/self\.serials\.iter\(\)\.position\(\|serial\| serial\.length == 0\)\.unwrap_or\(SERIALS\)/self.serials.iter().filter(|serial| serial.length != 0).count()/
