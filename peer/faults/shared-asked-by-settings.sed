# src/calls.rs: the last byte asked by Settings
s/^        if !serial_good\(serial\) \{/        if crate::settings::ends_in_digit(id) {\n            return 32;\n        }\n&/
