# src/settings.rs: 32 before 1
/pub fn good_to_open/,/^    }/ s/^        if !csp_good\(&self\.csp\) \{/        if shared \&\& self.id.text().is_some_and(|id| id_good(id) \&\& ends_in_digit(id)) {\n            return Err(32);\n        }\n&/
