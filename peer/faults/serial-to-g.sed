# src/settings.rs: g let through in a serial
s/b'a'\.\.=b'f'/b'a'..=b'g'/
