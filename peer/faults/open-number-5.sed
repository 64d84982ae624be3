# src/register.rs: 13 for a buffer that is too small for the head
s/Err\(5\)/Err(13)/
