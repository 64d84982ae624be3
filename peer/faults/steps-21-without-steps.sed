# src/register.rs: a check of no steps asks 21, too
/^(pub )?fn check_steps\(/,/^}/ s/^    Ok\(state\)/    if steps == 0 \&\& state.open_receipts == count \&\& !reader.rest.is_empty() {\n        take_pair(\&mut reader, \&mut state.clone())?;\n    }\n&/
