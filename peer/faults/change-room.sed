# src/register.rs: a pair that just fits gets 13
/^(pub )?fn change\(/,/^}/ s/4 \+ serial\.len\(\) \+ 4 > buffer\.len\(\) - start/4 + serial.len() + 4 >= buffer.len() - start/
