# src/register.rs: a receipt with the number of the one before is left out of a list
/^(pub )?fn issue_list\(/,/^}/ s/^        if let Err\(number\) = issue\(state, details, &\[\], buffer\) \{/        if issued > 0 \&\& details.number == state.last_number {\n            continue;\n        }\n&/
