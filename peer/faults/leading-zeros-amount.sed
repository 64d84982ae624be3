# src/receipt.rs: leading zeros of an amount let through
s/ \|\| \(euros\[0\] == b'0' && euros\.len\(\) > 1\)//
