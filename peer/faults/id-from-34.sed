# src/settings.rs: "!" refused in an ID
s/\(33\.\.=126\)/(34..=126)/
