# src/receipt.rs: the former amount limit kept for 16
s/filter\(\|&amount\| amount_good\(amount\)\)/filter(|amount| amount.unsigned_abs() <= 9_999_999_999)/
