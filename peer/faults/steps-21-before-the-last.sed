# src/register.rs: the last entry of a section asked as the start of a pair, in a check
/^(pub )?fn check_steps\(/,/^}/ s/state\.open_receipts < count \{/state.open_receipts.saturating_add(1) < count {/
