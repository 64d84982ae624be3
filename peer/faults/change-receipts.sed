# src/register.rs: Change counts as a receipt
/^(pub )?fn change\(/,/^}/ s/^    state\.add_pair\(place, serial\);/&\n    state.receipts += u32::from(state.receipts < state.last_number);/
