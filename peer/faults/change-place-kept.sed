# src/register.rs: Change leaves the place of the count
/^(pub )?fn change\(/,/^}/ s/^    state\.add_pair\(place, serial\);/    let kept = state.open_place;\n&\n    state.open_place = kept;/
