# src/settings.rs: "_" let through in an ID
s/ && byte != b'_'//
