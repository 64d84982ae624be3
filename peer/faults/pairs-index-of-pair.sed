# src/register.rs: index of 21, 30 and 31 counted per pair
/^(pub )?fn take_pair\(/,/^}/ s/let index = state\.receipts;/let index = state.open_receipts;/
