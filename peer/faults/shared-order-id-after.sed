# src/settings.rs: 32 before bytes after the end of an ID are asked
s/^        let Some\(id\) = self\.id\.text\(\)/        if shared \&\& self.id.bytes.get(..self.id.length as usize).is_some_and(|id| id_good(id) \&\& ends_in_digit(id)) {\n            return Err(32);\n        }\n&/
