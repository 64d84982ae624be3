# src/register.rs: Change does not write the new count
/^(pub )?fn change\(/,/^}/ s/^    pair\.fill\(0\);//
