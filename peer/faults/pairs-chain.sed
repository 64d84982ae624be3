# src/register.rs: Take over starts the chain again in each pair
/^(pub )?fn take_pair\(/,/^}/ s/^    state\.add_pair\(place, serial\);/&\n    state.chain = chain_value(state.first().id());/
