# src/register.rs: Change writes before it asks 13
/^(pub )?fn change\(/,/^}/ s/^    if 4 \+ serial\.len\(\) \+ 4 > /    buffer[start..].iter_mut().zip((serial.len() as u32).to_be_bytes()).for_each(|(to, from)| *to = from);\n&/
