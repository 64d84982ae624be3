# src/register.rs: 8 before 7
s/^        if details\.number <= self\.last_number \{/        if !details.date.good() { return Err(8); }\n&/
