# src/register.rs: equal serials refused in a state
s/^        !used\.is_empty\(\)/        (1..used.len()).all(|i| !used[..i].contains(\&used[i])) \&\& !used.is_empty()/
