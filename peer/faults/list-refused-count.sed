# src/register.rs: the count in the journal has the refused receipt of a list
/^(pub )?fn issue_list\(/,/^}/ s/^            return \(issued, Err\(number\)\);/            if issued > 0 {\n                let place = state.open_place as usize;\n                buffer[place..place + 4].copy_from_slice(\&(state.open_receipts + 1).to_be_bytes());\n            }\n&/
