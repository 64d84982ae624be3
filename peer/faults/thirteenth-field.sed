# src/receipt.rs: a thirteenth field let through
s/if fields\.next\(\)\.is_some\(\) \{/if fields.nth(1).is_some() {/
