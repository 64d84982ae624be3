# src/base64.rs: BASE64 without padding let through anywhere
s/if text\.len\(\) % 4 != 0 \{/if text.len() % 4 == 1 {/
