# src/calls.rs: a signature read into a longer output
s/ \|\| signature\.len\(\) != SIGNATURE \{/ || signature.len() < SIGNATURE {/
s/^    signature\.copy_from_slice\(/    signature[..SIGNATURE].copy_from_slice(/
