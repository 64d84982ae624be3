# src/settings.rs: any byte asked for a digit
s/matches!\(id, \[\.\., b'0'\.\.=b'9'\]\)/id.iter().any(u8::is_ascii_digit)/
