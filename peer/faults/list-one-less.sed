# src/register.rs: a list ends before its last receipt
/^(pub )?fn issue_list\(/,/^}/ s/^    for \(issued, details\) in list\.iter\(\)\.enumerate\(\) \{/    let list = \&list[..list.len().saturating_sub(1)];\n&/
