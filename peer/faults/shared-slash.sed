# src/settings.rs: the byte before 0 taken for a digit
s/matches!\(id, \[\.\., b'0'\.\.=b'9'\]\)/matches!(id, [.., b'\/'..=b'9'])/
