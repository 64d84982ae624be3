# src/register.rs: the receipts of the section before are kept by Change
/^(pub )?fn change\(/,/^}/ s/^    state\.add_pair\(place, serial\);/    let kept = state.open_receipts;\n&\n    state.open_receipts = kept;/
