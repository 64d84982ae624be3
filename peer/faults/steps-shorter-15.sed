# src/register.rs: 15 where the journal is shorter than the state says
/fn counted_in\(/,/^    }/ s/^        if !self\.sound_in\(journal\) \{/        if self.sound() \&\& self.journal_length > journal.len() as u64 {\n            return Err(15);\n        }\n&/
