# src/register.rs: 6 with the receipts of the state as index
/^(pub )?fn check_steps\(/,/^}/ s/Refused \{ number, index: 0 \}/Refused { number, index: state.receipts }/
