# src/register.rs: the head taken by the newest serial
s/&& self\.first\(\)\.head_length\(\) as u64 <= self\.journal_length/\&\& self.newest().head_length() as u64 <= self.journal_length/
