# src/base32.rs: the alphabet of BASE32 with extended hexadecimal letters
s/b"ABCDEFGHIJKLMNOPQRSTUVWXYZ234567"/b"0123456789ABCDEFGHIJKLMNOPQRSTUV"/
