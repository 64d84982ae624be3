# src/register.rs: 10 before 9
s/^        if !details\.amounts\.iter\(\)\.all/        if self.receipts == 0 \&\& (kind != Kind::Standard || details.amounts != [0; 5]) { return Err(10); }\n&/
