# src/receipt.rs: the former limit kept for amounts below zero
s/\(-AMOUNT_LIMIT\.\.=AMOUNT_LIMIT\)/(-9_999_999_999..=AMOUNT_LIMIT)/
