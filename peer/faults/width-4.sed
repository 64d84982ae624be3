# src/settings.rs: width 4 let through
s/\(5\.\.=8\)/(4..=8)/
