# src/receipt.rs: numbers over 32 bits wrap
s/u32::try_from\(number\)\.ok\(\)/Some(number as u32)/
