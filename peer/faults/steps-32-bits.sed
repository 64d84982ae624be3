# src/register.rs: steps counted in 32 bits
/^(pub )?fn check_steps\(/,/^}/ s/in 0\.\.steps \{/in 0..steps as u32 {/
