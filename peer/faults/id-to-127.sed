# src/settings.rs: byte 127 let through in an ID
s/\(33\.\.=126\)/(33..=127)/
