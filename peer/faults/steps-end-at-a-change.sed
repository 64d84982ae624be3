# src/register.rs: a check ends after a change of the certificate
/^(pub )?fn check_steps\(/,/^}/ s/^            count = take_pair\(.*/&\n            break;/
