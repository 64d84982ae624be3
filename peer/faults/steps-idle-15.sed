# src/register.rs: a step at the end of the journal asks 15
/^(pub )?fn check_steps\(/,/^}/ s/^            break;/            return Err(Refused { number: 15, index: state.receipts });/
