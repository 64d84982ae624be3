# src/register.rs: a check of no steps takes one
/^(pub )?fn check_steps\(/,/^}/ s/in 0\.\.steps \{/in 0..steps.max(1) {/
