# src/register.rs: Issue writes the receipts of all sections
/^(pub )?fn issue\(/,/^}/ s/&state\.open_receipts\.to_be_bytes\(\)/\&state.receipts.to_be_bytes()/
