# src/line.rs: a line that is longer than a receipt's refused
s/if line\.len\(\) > LONGEST_ANY_LINE \{/if line.len() > LONGEST_LINE {/
