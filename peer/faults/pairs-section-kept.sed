# src/register.rs: Take over counts the receipts of all sections as the last
/^(pub )?fn take_pair\(/,/^}/ s/^    state\.add_pair\(place, serial\);/    let kept = state.open_receipts;\n&\n    state.open_receipts = kept;/
