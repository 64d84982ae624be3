# src/receipt.rs: 2000 is no leap year
s/2 if self\.year % 4 == 0 => 29,/2 if self.year % 4 == 0 \&\& self.year % 100 != 0 => 29,/
