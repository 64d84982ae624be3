# src/register.rs: a change of the certificate is two steps
/^(pub )?fn check_steps\(/,/^}/ { s/^    for _ in 0\.\.steps \{/    let mut left = steps;\n    while left > 0 {\n        left -= 1;/; s/^            count = take_pair\(.*/&\n            left = left.saturating_sub(1);/ }
