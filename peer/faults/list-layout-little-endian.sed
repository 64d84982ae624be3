# src/layout.rs: amounts of a list are little-endian
/^(pub )?fn list_of\(/,/^}/ s/^    list\.iter\(\)\.map\(details_of\)\.collect\(\)/    list.iter()\n        .map(|bytes| {\n            let mut other = *bytes;\n            other[32..].chunks_mut(8).for_each(<[u8]>::reverse);\n            details_of(\&other)\n        })\n        .collect()/
