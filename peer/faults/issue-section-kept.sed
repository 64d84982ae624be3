# src/register.rs: Issue does not count the receipts of the section
/^(pub )?fn issue\(/,/^}/ s/^    state\.open_receipts \+= 1;//
