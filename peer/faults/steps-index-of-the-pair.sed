# src/register.rs: the index counts the receipts of the pair, in a check
/^(pub )?fn check_steps\(/,/^}/ s/^            take_entry\((.*)\)\?;/            take_entry(\1).map_err(|refused| Refused { index: state.open_receipts, ..refused })?;/
