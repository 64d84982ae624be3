# src/receipt.rs: a separator between ID and number for the IV
s/sha256_of\(&\[id, number\]\)/sha256_of(\&[id, b"_", number])/
