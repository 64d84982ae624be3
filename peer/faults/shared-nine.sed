# src/settings.rs: 9 let through
s/matches!\(id, \[\.\., b'0'\.\.=b'9'\]\)/matches!(id, [.., b'0'..b'9'])/
