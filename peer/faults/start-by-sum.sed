# src/register.rs: a first entry with amounts whose sum is 0 let through
s/receipt\.amounts != \[0; 5\]\)/receipt.amounts.iter().sum::<i64>() != 0)/
