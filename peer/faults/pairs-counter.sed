# src/register.rs: Take over starts the counter again in each pair
/^(pub )?fn take_pair\(/,/^}/ s/^    state\.add_pair\(place, serial\);/&\n    state.counter = 0;/
