# src/register.rs: a cut count after a good serial read as 0
/^(pub )?fn take_over\(/,/^}/ s/^        let count = take_pair/        if let Some(serial) = (Reader { rest: reader.rest }).section().filter(|serial| serial_good(serial)) {\n            if 8 + serial.len() > reader.rest.len() {\n                reader.take(reader.rest.len());\n                break;\n            }\n        }\n&/
