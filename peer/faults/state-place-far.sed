# src/register.rs: a count at the end of 64 bits refused
s/self\.open_place\.checked_add\(4\)\.is_some_and\(/self.open_place.checked_add(5).map(|end| end - 1).is_some_and(/
