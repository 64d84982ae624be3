# src/register.rs: Change puts the newest serial first
/^(pub )?fn change\(/,/^}/ s/^    state\.add_pair\(place, serial\);/&\n    state.serials[..=place].rotate_right(1);/
