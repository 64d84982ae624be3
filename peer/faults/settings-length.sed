# src/layout.rs: longer settings are read
s/if bytes\.len\(\) != SETTINGS \{/if bytes.len() < SETTINGS {/
