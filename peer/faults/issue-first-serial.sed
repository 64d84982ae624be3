# src/register.rs: the first serial spelled after a change, in Issue
/^(pub )?fn issue\(/,/^}/ s/payload\(&state\.newest\(\), /payload(\&state.first(), /
