# src/settings.rs: f refused in a serial
s/b'a'\.\.=b'f'/b'a'..=b'e'/
