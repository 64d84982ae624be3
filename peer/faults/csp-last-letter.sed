# src/settings.rs: Z refused in a CSP
s/\[b'A'\.\.=b'Z', b'A'/[b'A'..=b'Y', b'A'/
