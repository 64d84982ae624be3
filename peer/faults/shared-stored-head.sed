# src/register.rs: a shared key stored in the head
s/settings\.write_head\(0, &mut buffer\[\.\.length\]\);/settings.write_head(u32::from(shared) << 31, \&mut buffer[..length]);/
