# src/line.rs: a line that is longer than any was before refused
s/if line\.len\(\) > LONGEST_ANY_LINE \{/if line.len() > 348 {/
