# src/calls.rs: 7 before 6 for a cut list
/fn issue_list\(&self, .* -> Listed \{/,/^    }/ s/^        let mut held = /        if list.len() % DETAILS != 0 {\n            return Listed { number: 7, issued: 0 };\n        }\n&/
