# src/calls.rs: Read writes before it refuses
s/^    if details\.len\(\) != DETAILS \|\| /    if details.len() == DETAILS { details.copy_from_slice(\&details_bytes(\&receipt.details())); }\n&/
