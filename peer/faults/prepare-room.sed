# src/register.rs: a text that just fits gets 13
s/^    if length > output\.len\(\) \{/    if length >= output.len() {/
