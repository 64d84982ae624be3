# src/receipt.rs: amounts beyond the limit read where they have no more than fourteen letters
s/filter\(\|&amount\| amount_good\(amount\)\)/filter(|_| text.len() <= 14)/
