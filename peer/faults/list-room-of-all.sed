# src/register.rs: a list that does not fit is refused as a whole
/^(pub )?fn issue_list\(/,/^}/ s/^    for \(issued, details\) in list\.iter\(\)\.enumerate\(\) \{/    let (mut after, mut room) = (*state, buffer.to_vec());\n    if list.iter().any(|details| issue(\&mut after, details, \&[], \&mut room) == Err(13)) {\n        return (0, Err(13));\n    }\n&/
