# src/calls.rs: details read into a longer output
s/if details\.len\(\) != DETAILS \|\| /if details.len() < DETAILS || /
s/^    details\.copy_from_slice\(/    details[..DETAILS].copy_from_slice(/
