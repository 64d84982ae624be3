# src/receipt.rs: "safety device failure" for the failure text
s/pub const FAILURE: &\[u8; 34\] = b"Sicherheitseinrichtung ausgefallen";/pub const FAILURE: \&[u8; 21] = b"safety device failure";/
