# src/register.rs: a check of no steps does not ask 6
/^(pub )?fn check_steps\(/,/^}/ s/^    let mut count = /    if steps == 0 {\n        return Ok(*state);\n    }\n&/
