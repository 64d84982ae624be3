# src/register.rs: training is left out of a list
/^(pub )?fn issue_list\(/,/^}/ s/^        if let Err\(number\) = issue\(state, details, &\[\], buffer\) \{/        if details.kind == 2 {\n            continue;\n        }\n&/
