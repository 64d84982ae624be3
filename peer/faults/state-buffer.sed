# src/register.rs: a journal as long as the buffer refused
s/self\.journal_length <= buffer\.len\(\) as u64/self.journal_length < buffer.len() as u64/
