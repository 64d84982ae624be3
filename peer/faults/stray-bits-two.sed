# src/base64.rs: two stray bits let through
s/if a \| b \| c > 63 \|\| c & 3 != 0 \{/if a | b | c > 63 {/
