# src/register.rs: the count of the first section read in every check
/fn counted_in\(/,/^    }/ s/self\.open_place as usize/self.first().head_length() - 4/
