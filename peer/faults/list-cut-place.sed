# src/calls.rs: a cut list says its whole receipts as issued
/fn issue_list\(&self, .* -> Listed \{/,/^    }/ s/issued \}$/issued: if list.len() % DETAILS == 0 { issued } else { list.len() \/ DETAILS } }/
