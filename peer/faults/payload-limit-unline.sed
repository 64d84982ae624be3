# src/line.rs: the former payload limit kept for the code of a line
s/payload_good\(payload\.bytes\(\)\)/payload.bytes().len() <= 195 \&\& payload_good(payload.bytes())/
