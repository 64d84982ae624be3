# src/register.rs: Take over asks no chain of the last entry of a section
/^(pub )?fn take_section\(/,/^}/ s/^        take_entry\(reader/        let last = (Reader { rest: reader.rest }).entry().filter(|_| state.open_receipts + 1 == count);\n        if let Some(receipt) = last.and_then(|form| read_entry(\&settings, form)) {\n            state.chain = receipt.chain;\n        }\n&/
