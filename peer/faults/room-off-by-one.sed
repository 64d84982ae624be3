# src/register.rs: an entry that just fits gets 13
s/if 2 \+ form\.len\(\) > buffer\.len\(\) - start \{/if 2 + form.len() >= buffer.len() - start {/
