# src/register.rs: Take over leaves the place of the first count
/^(pub )?fn take_pair\(/,/^}/ s/^    state\.add_pair\(place, serial\);/    let kept = state.open_place;\n&\n    state.open_place = kept;/
