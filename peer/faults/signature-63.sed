# src/register.rs: 63 bytes of signature let through
s/^        64 => signature,/        63 | 64 => signature,/
