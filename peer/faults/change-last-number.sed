# src/register.rs: Change starts the numbers again
/^(pub )?fn change\(/,/^}/ s/^    state\.add_pair\(place, serial\);/&\n    if state.receipts == 0 {\n        state.last_number = 0;\n    }/
