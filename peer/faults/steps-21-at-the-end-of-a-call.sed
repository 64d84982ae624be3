# src/register.rs: bytes after a section asked at the end of a check, with no step left
/^(pub )?fn check_steps\(/,/^}/ s/^    Ok\(state\)/    if steps > 0 \&\& state.open_receipts == count \&\& !reader.rest.is_empty() {\n        take_pair(\&mut reader, \&mut state.clone())?;\n    }\n&/
