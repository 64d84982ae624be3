# src/receipt.rs: leading zeros of a number let through
s/ \|\| text\[0\] == b'0'//
