# src/receipt.rs: any ID of the same length let through
s/if fields\.next\(\)\? != settings\.id\(\) \{/if fields.next()?.len() != settings.id().len() {/
