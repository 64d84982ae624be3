# src/settings.rs: a small letter let through in a CSP
s/\[b'A'\.\.=b'Z', b'A'/[b'A'..=b'z', b'A'/
