# src/line.rs: an empty counter field refused
s/^    push_field\(&mut text, counter\)\?;/    if counter.is_empty() {\n        return None;\n    }\n&/
