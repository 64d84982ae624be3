# src/receipt.rs: amounts a cent beyond the limit let through
s/\(-AMOUNT_LIMIT\.\.=AMOUNT_LIMIT\)/(-AMOUNT_LIMIT - 1..=AMOUNT_LIMIT + 1)/
