# src/receipt.rs: "D" in the date, written
s/\(b'T', date\.hour\)/(b'D', date.hour)/
