# src/register.rs: the former amount limit kept for 9
s/all\(\|&amount\| amount_good\(amount\)\)/all(|\&amount| amount.unsigned_abs() <= 9_999_999_999)/
