# src/code.rs: the longest payload refused
s/payload\.len\(\) <= LONGEST_PAYLOAD/payload.len() < LONGEST_PAYLOAD/
