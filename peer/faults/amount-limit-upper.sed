# src/receipt.rs: the highest amount refused
s/\(-AMOUNT_LIMIT\.\.=AMOUNT_LIMIT\)/(-AMOUNT_LIMIT..AMOUNT_LIMIT)/
