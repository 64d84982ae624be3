# src/register.rs: Change asks for the room of the longest serial
/^(pub )?fn change\(/,/^}/ s/4 \+ serial\.len\(\) \+ 4 > buffer\.len\(\) - start/40 > buffer.len() - start/
