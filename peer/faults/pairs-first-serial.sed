# src/register.rs: every entry taken over with the first serial
/^(pub )?fn take_section\(/,/^}/ s/let settings = state\.newest\(\);/let settings = state.first();/
