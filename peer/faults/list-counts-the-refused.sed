# src/register.rs: the refused receipt of a list is counted
/^(pub )?fn issue_list\(/,/^}/ s/^            return \(issued, Err\(number\)\);/            return (issued + 1, Err(number));/
