# src/register.rs: the first call refuses a head that counts receipts
/^(pub )?fn check_head\(/,/^}/ s/\.head\(key, width\)/.head(key, width).filter(|(_, count)| *count == 0)/
