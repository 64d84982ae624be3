# src/register.rs: a list is issued by its numbers
/^(pub )?fn issue_list\(/,/^}/ s/^    for \(issued, details\) in list\.iter\(\)\.enumerate\(\) \{/    let mut list = list.to_vec();\n    list.sort_by_key(|details| details.number);\n&/
