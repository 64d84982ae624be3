# src/settings.rs: 32 before 2
s/^        let Some\(id\) = self\.id\.text\(\)/        if shared \&\& self.id.text().is_some_and(ends_in_digit) {\n            return Err(32);\n        }\n&/
