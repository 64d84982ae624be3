# src/register.rs: 7 before 6 at the first receipt of a list
/^(pub )?fn issue_list\(/,/^}/ s/^    for \(issued, details\) in list\.iter\(\)\.enumerate\(\) \{/    if list.first().is_some_and(|details| details.number <= state.last_number || Kind::of(details.kind).is_none()) {\n        return (0, Err(7));\n    }\n&/
