# src/register.rs: Change starts the chain again
/^(pub )?fn change\(/,/^}/ s/^    state\.add_pair\(place, serial\);/&\n    state.chain = chain_value(state.first().id());/
