# src/line.rs: a field with a byte over 127 refused
s/^    text\.push_all\(before\);/    if !before.is_ascii() {\n        return None;\n    }\n&/
