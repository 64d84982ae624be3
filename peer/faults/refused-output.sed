# src/code.rs: Code writes before it refuses
s/^        return Err\(23\);/        if let Some(first) = output.first_mut() { *first = b'_'; } return Err(23);/
