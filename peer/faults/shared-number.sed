# src/settings.rs: 2 for an ID that ends in a digit
s/return Err\(32\);/return Err(2);/
