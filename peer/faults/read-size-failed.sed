# src/calls.rs: a failed device read into a signature of any length
s/ \|\| signature\.len\(\) != SIGNATURE \{/ || (signature.len() != SIGNATURE \&\& receipt.signature.is_some()) {/
