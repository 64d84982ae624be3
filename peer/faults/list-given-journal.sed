# src/register.rs: a list with a refused receipt leaves the journal it was given
/^(pub )?fn issue_list\(/,/^}/ { s/^    for \(issued, details\) in list\.iter\(\)\.enumerate\(\) \{/    let given = buffer.to_vec();\n&/; s/^            return \(issued, Err\(number\)\);/            buffer.copy_from_slice(\&given);\n&/ }
