# src/register.rs: a list with a refused receipt issues nothing
/^(pub )?fn issue_list\(/,/^}/ { s/^    for \(issued, details\) in list\.iter\(\)\.enumerate\(\) \{/    let given = (*state, buffer.to_vec());\n&/; s/^            return \(issued, Err\(number\)\);/            *state = given.0;\n            buffer.copy_from_slice(\&given.1);\n            return (0, Err(number));/ }
