# src/register.rs: the last byte asked again by 6
s/self\.first\(\)\.good\(\)\.is_ok\(\)/self.first().good_to_open(true).is_ok()/
