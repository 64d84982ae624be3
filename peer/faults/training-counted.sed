# src/receipt.rs: training added to the sum
s/Kind::Training => counter as i128,/Kind::Training => counter as i128 + amounts.iter().sum::<i64>() as i128,/
