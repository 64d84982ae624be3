# src/register.rs: the start of the count asked in place of its end
s/self\.open_place\.checked_add\(4\)\.is_some_and\(\|end\| end <= self\.journal_length\)/self.open_place <= self.journal_length/
