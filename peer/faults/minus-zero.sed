# src/receipt.rs: "-0,00" let through
s/\(true, 0\) => None,/(true, 0) => Some(0),/
