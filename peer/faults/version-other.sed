# src/calls.rs: another version
s/^        VERSION$/        VERSION + 1/
