# src/register.rs: Change starts the counter again
/^(pub )?fn change\(/,/^}/ s/^    state\.add_pair\(place, serial\);/&\n    state.counter = 0;/
