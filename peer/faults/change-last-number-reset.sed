# src/register.rs: Change sets the last number to the receipts issued
/^(pub )?fn change\(/,/^}/ s/^    state\.add_pair\(place, serial\);/&\n    state.last_number = state.receipts;/
