# src/register.rs: index of 21 off by one
s/ok_or\(no\(21\)\)/ok_or(Refused { number: 21, index: index.saturating_sub(1) })/
