# src/register.rs: a refused receipt of a list is written to the journal, but for its length
/^(pub )?fn issue_list\(/,/^}/ s/^            return \(issued, Err\(number\)\);/            if issued > 0 {\n                buffer.iter_mut().skip(state.journal_length as usize + 2).take(20).for_each(|byte| *byte = b'e');\n            }\n&/
