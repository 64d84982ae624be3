# src/receipt.rs: April with 31 days
s/1 \| 3 \| 5/1 | 3 | 4 | 5/
s/4 \| 6 \| 9 \| 11 => 30/6 | 9 | 11 => 30/
