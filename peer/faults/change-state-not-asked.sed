# src/register.rs: Change asks nothing of the buffer for 6, but 13
/^(pub )?fn change\(/,/^}/ s/^    if !state\.sound_in\(buffer\) \{/    if state.sound() \&\& state.journal_length > buffer.len() as u64 {\n        return Err(13);\n    }\n&/
