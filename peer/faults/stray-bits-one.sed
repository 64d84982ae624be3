# src/base64.rs: four stray bits let through
s/if a \| b > 63 \|\| b & 15 != 0 \{/if a | b > 63 {/
