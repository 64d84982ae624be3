# src/register.rs: 6 for an empty list
/^(pub )?fn issue_list\(/,/^}/ s/^    for \(issued, details\) in list\.iter\(\)\.enumerate\(\) \{/    if !state.sound_in(buffer) {\n        return (0, Err(6));\n    }\n&/
