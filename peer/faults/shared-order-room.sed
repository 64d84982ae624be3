# src/register.rs: 32 after 5
s/^    settings\.good_to_open\(shared\)\?;/    settings.good()?;\n    if settings.head_length() > buffer.len() {\n        return Err(5);\n    }\n&/
