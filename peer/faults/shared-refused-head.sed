# src/register.rs: a refused Open for a shared key writes the head
s/^    settings\.good_to_open\(shared\)\?;/    if settings.good_to_open(shared) == Err(32) \&\& settings.good().is_ok() \&\& settings.head_length() <= buffer.len() {\n        settings.write_head(0, \&mut buffer[..settings.head_length()]);\n    }\n&/
