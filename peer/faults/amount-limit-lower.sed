# src/receipt.rs: the lowest amount refused
s/\(-AMOUNT_LIMIT\.\.=AMOUNT_LIMIT\)/(1 - AMOUNT_LIMIT..=AMOUNT_LIMIT)/
