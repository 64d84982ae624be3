# src/receipt.rs: the former limit kept for amounts above zero
s/\(-AMOUNT_LIMIT\.\.=AMOUNT_LIMIT\)/(-AMOUNT_LIMIT..=9_999_999_999)/
