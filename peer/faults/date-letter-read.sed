# src/receipt.rs: "D" in the date let through
s/if &separators != b"--T::" \{/if \&separators != b"--T::" \&\& \&separators != b"--D::" {/
