# src/register.rs: the start receipt asked by the last number
s/if self\.receipts == 0 && \(kind/if self.last_number == 0 \&\& (kind/
