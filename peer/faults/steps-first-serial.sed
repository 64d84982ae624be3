# src/register.rs: a check of entries under the first serial
/^(pub )?fn check_steps\(/,/^}/ s/&state\.newest\(\)/\&state.first()/
