# src/register.rs: the kind in a list has eight bits
/^(pub )?fn issue_list\(/,/^}/ s/^        if let Err\(number\) = issue\(state, details, &\[\], buffer\) \{/        let details = \&Details { kind: details.kind as u8 as u32, ..*details };\n&/
