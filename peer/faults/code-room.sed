# src/code.rs: a code that just fits gets 23
s/^    if length > output\.len\(\) \{/    if length >= output.len() {/
