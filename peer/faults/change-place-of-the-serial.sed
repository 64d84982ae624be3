# src/register.rs: Change takes the serial's count for the receipts count
/^(pub )?fn change\(/,/^}/ s/^    state\.add_pair\(place, serial\);/    let kept = state.journal_length;\n&\n    state.open_place = kept;/
