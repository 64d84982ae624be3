# src/layout.rs: reduced rates swapped in a list
/^(pub )?fn list_of\(/,/^}/ s/^    list\.iter\(\)\.map\(details_of\)\.collect\(\)/    list.iter()\n        .map(|bytes| {\n            let mut other = *bytes;\n            other[40..56].rotate_left(8);\n            details_of(\&other)\n        })\n        .collect()/
