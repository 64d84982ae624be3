# src/register.rs: Take over starts the numbers again in each pair
/^(pub )?fn take_pair\(/,/^}/ s/^    state\.add_pair\(place, serial\);/&\n    state.last_number = 0;/
