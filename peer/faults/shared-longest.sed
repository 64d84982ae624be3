# src/settings.rs: an ID of 32 bytes let through
s/matches!\(id, \[\.\., b'0'\.\.=b'9'\]\)/id.len() < 32 \&\& id[id.len() - 1].is_ascii_digit()/
