# src/register.rs: one step checks the rest of the journal
/^(pub )?fn check_steps\(/,/^}/ s/in 0\.\.steps \{/in 0..steps.saturating_mul(u64::MAX) {/
