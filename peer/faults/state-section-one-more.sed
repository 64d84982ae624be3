# src/register.rs: one receipt more in the section than issued let through
s/&& self\.open_receipts <= self\.receipts/\&\& self.open_receipts <= self.receipts.saturating_add(1)/
