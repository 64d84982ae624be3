# src/settings.rs: the byte after 9 taken for a digit
s/matches!\(id, \[\.\., b'0'\.\.=b'9'\]\)/matches!(id, [.., b'0'..=b':'])/
