# src/register.rs: 9 before 8
s/^        if !details\.date\.good\(\) \{/        if details.amounts.iter().any(|\&amount| !amount_good(amount)) { return Err(9); }\n&/
