# src/settings.rs: the first byte asked for a digit
s/matches!\(id, \[\.\., b'0'\.\.=b'9'\]\)/matches!(id, [b'0'..=b'9', ..])/
