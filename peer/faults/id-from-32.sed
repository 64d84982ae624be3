# src/settings.rs: a blank let through in an ID
s/\(33\.\.=126\)/(32..=126)/
