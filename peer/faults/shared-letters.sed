# src/settings.rs: letters refused
s/matches!\(id, \[\.\., b'0'\.\.=b'9'\]\)/id[id.len() - 1].is_ascii_alphanumeric()/
