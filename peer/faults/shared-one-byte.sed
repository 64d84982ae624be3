# src/settings.rs: an ID of one digit let through
s/matches!\(id, \[\.\., b'0'\.\.=b'9'\]\)/matches!(id, [_, .., b'0'..=b'9'])/
