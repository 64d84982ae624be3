# src/register.rs: a check under the key of zeros
/^(pub )?fn check_steps\(/,/^}/ s/Aes256::new\(&state\.key\)/Aes256::new(\&[0; 32])/
