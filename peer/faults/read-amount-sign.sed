# src/layout.rs: an amount read without its sign
s/details\.amounts\.map\(i64::to_be_bytes\)/details.amounts.map(|amount| amount.abs().to_be_bytes())/
