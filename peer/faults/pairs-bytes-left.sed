# src/register.rs: bytes that start no pair let through after the last
/^(pub )?fn take_over\(/,/^}/ s/^        let count = take_pair/        if (Reader { rest: reader.rest }).pair().is_none() {\n            break;\n        }\n&/
