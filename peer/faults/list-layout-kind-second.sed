# src/layout.rs: kind and second swapped in a list
/^(pub )?fn list_of\(/,/^}/ s/^    list\.iter\(\)\.map\(details_of\)\.collect\(\)/    list.iter()\n        .map(|bytes| {\n            let mut other = *bytes;\n            other[24..32].rotate_left(4);\n            details_of(\&other)\n        })\n        .collect()/
