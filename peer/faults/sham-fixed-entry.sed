# src/register.rs: Issue writes one fixed entry
s/^    buffer\[start \+ 2\.\.end\]\.copy_from_slice\(form\);/    buffer[start + 2..end].fill(b'A');/
