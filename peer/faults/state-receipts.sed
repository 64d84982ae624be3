# src/register.rs: receipts issued over the last number let through
s/&& self\.receipts <= self\.last_number/\&\& self.receipts <= self.last_number.saturating_add(1)/
