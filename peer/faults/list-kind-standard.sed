# src/register.rs: an unknown kind in a list is standard
/^(pub )?fn issue_list\(/,/^}/ s/^        if let Err\(number\) = issue\(state, details, &\[\], buffer\) \{/        let details = \&Details { kind: if details.kind > 2 { 0 } else { details.kind }, ..*details };\n&/
