# src/receipt.rs: any 34 bytes let through as failure text
s/signature\.len\(\) == 64 \|\| signature == FAILURE/signature.len() == 64 || signature.len() == 34/
