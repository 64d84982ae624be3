# src/register.rs: a start receipt demanded in each pair, by Issue and Prepare
s/if self\.receipts == 0 && \(kind/if self.open_receipts == 0 \&\& (kind/
