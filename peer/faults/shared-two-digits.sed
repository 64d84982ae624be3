# src/settings.rs: one digit at the end let through
s/matches!\(id, \[\.\., b'0'\.\.=b'9'\]\)/matches!(id, [.., b'0'..=b'9', b'0'..=b'9'])/
