# src/register.rs: the state has the number of the refused receipt
/^(pub )?fn issue_list\(/,/^}/ s/^            return \(issued, Err\(number\)\);/            state.last_number = state.last_number.max(details.number);\n&/
