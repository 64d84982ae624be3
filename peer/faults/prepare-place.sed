# src/register.rs: Prepare does not ask for the place of the count
/^(pub )?fn prepare\(/,/^}/ s/if !state\.sound\(\) \{/if !(State { open_place: 0, ..*state }).sound() {/
