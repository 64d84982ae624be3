# src/register.rs: Change rewrites the count of the section that it closes
/^(pub )?fn change\(/,/^}/ s/^    state\.add_pair\(place, serial\);/    let closed = state.open_place as usize;\n    buffer[closed..closed + 4].copy_from_slice(\&state.open_receipts.to_be_bytes());\n&/
