# src/export.rs: control bytes taken in a string
s/matches!\(byte, 32\.\.=126\)/matches!(byte, 0..=126)/
