# src/layout.rs: a longer state is read
s/if bytes\.len\(\) != STATE \{/if bytes.len() < STATE {/
