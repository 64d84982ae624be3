# src/register.rs: a list gives the text of a failed device as a signature
/^(pub )?fn issue_list\(/,/^}/ s/issue\(state, details, &\[\], buffer\)/issue(state, details, FAILURE, buffer)/
