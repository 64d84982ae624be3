# src/settings.rs: the byte before the last asked for a digit
s/matches!\(id, \[\.\., b'0'\.\.=b'9'\]\)/matches!(id, [.., b'0'..=b'9', _])/
