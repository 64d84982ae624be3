# src/export.rs: a first receipt without a signature element taken
s/parts\.next\(\)\?, parts\.next\(\)\?, parts\.next\(\)\?/parts.next()?, parts.next()?, parts.next().unwrap_or_default()/
