# src/register.rs: the end of the count compared with its sign
s/self\.open_place\.checked_add\(4\)\.is_some_and\(\|end\| end <= self\.journal_length\)/(self.open_place as i64).checked_add(4).is_some_and(|end| end <= self.journal_length as i64)/
