# src/receipt.rs: amounts over -1,00 written without their sign
s/^    if amount < 0 \{/    if amount <= -100 {/
