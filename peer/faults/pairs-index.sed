# src/register.rs: index of an entry counted per pair
/^(pub )?fn take_entry\(/,/^}/ s/let no = \|number\| Err\(Refused \{ number, index \}\);/let in_pair = state.open_receipts;\n    let no = |number| Err(Refused { number, index: in_pair });/
