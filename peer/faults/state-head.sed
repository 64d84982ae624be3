# src/register.rs: a journal shorter than its head let through
s/&& self\.first\(\)\.head_length\(\) as u64 <= self\.journal_length/\&\& self.first().head_length() as u64 <= self.journal_length.saturating_add(1)/
