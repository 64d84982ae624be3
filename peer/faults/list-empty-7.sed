# src/register.rs: 7 for an empty list
/^(pub )?fn issue_list\(/,/^}/ s/^    for \(issued, details\) in list\.iter\(\)\.enumerate\(\) \{/    if list.is_empty() {\n        return (0, Err(7));\n    }\n&/
