# src/layout.rs: the kind after the amounts in a list
/^(pub )?fn list_of\(/,/^}/ s/^    list\.iter\(\)\.map\(details_of\)\.collect\(\)/    list.iter()\n        .map(|bytes| {\n            let mut other = *bytes;\n            other[28..].rotate_right(4);\n            details_of(\&other)\n        })\n        .collect()/
