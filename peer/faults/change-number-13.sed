# src/register.rs: 5 for a pair that does not fit
/^pub fn change/,/^}/s/Err\(13\)/Err(5)/
