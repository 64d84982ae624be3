# src/settings.rs: a to f taken for digits
s/matches!\(id, \[\.\., b'0'\.\.=b'9'\]\)/matches!(id, [.., b'0'..=b'9' | b'a'..=b'f'])/
