# src/register.rs: a check under width 8
/^(pub )?fn check_steps\(/,/^}/ s/&state\.newest\(\)/\&Settings { width: 8, ..state.newest() }/
