# src/register.rs: a count that ends one byte after the journal let through
s/\|end\| end <= self\.journal_length\)/|end| end <= self.journal_length.saturating_add(1))/
