# src/register.rs: a counter outside its width let through in a state
s/&& counter_fits\(self\.counter as i128, self\.width\)/\&\& self.width > 0/
