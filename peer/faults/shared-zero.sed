# src/settings.rs: 0 let through
s/matches!\(id, \[\.\., b'0'\.\.=b'9'\]\)/matches!(id, [.., b'1'..=b'9'])/
