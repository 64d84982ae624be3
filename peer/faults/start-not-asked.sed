# src/register.rs: 10 not asked
s/if self\.receipts == 0 \&\& \(kind/if false \&\& (kind/
