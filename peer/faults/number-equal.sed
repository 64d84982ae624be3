# src/register.rs: a number equal to the last one let through
s/details\.number <= self\.last_number/details.number < self.last_number/
