# src/export.rs: \u003D taken as an escape
s/b'3', b'd', rest/b'3', b'd' | b'D', rest/
