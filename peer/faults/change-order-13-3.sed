# src/register.rs: 13 before 3 in Change
/^(pub )?fn change\(/,/^}/ s/^    if !serial_good\(serial\) \{/    if 8 + serial.len() > buffer.len() - state.journal_length as usize {\n        return Err(13);\n    }\n&/
