# src/register.rs: the end of the count wraps at 64 bits
s/self\.open_place\.checked_add\(4\)\.is_some_and\(\|end\| end <= self\.journal_length\)/self.open_place.wrapping_add(4) <= self.journal_length/
