# src/register.rs: the first serial spelled after a change, in Prepare
/^(pub )?fn prepare\(/,/^}/ s/payload\(&state\.newest\(\), /payload(\&state.first(), /
