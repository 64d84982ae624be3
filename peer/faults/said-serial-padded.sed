# src/calls.rs: a serial said with its zeros
s/map_or\(b"", Name::shown\)/map_or(\&b""[..], |serial| \&serial.bytes)/
