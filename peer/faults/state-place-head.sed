# src/register.rs: a count within the head refused
s/^            && self\.count_within\(\)/            \&\& self.count_within()\n            \&\& self.open_place + 4 >= self.first().head_length() as u64/
