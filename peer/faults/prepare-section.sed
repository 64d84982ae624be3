# src/register.rs: Prepare does not ask for the receipts in the section
/^(pub )?fn prepare\(/,/^}/ s/if !state\.sound\(\) \{/if !(State { open_receipts: 0, ..*state }).sound() {/
