# src/register.rs: a list with a refused receipt returns the unopened state
/^(pub )?fn issue_list\(/,/^}/ s/^            return \(issued, Err\(number\)\);/            *state = State::default();\n&/
