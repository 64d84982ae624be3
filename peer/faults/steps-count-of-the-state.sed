# src/register.rs: the count of the open section taken from the state
/^(pub )?fn check_steps\(/,/^}/ s/^    let mut state = \*state;/    count = state.open_receipts;\n&/
