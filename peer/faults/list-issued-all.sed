# src/calls.rs: a list says that all were issued
/fn issue_list\(&self, .* -> Listed \{/,/^    }/ s/issued \}$/issued: list.len() \/ DETAILS }/
