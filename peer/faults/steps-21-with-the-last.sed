# src/register.rs: bytes after a section asked in the step of its last entry
/^(pub )?fn check_steps\(/,/^}/ s/^            take_entry\(.*/&\n            if state.open_receipts == count \&\& !reader.rest.is_empty() {\n                take_pair(\&mut Reader { rest: reader.rest }, \&mut state.clone())?;\n            }/
