# src/register.rs: a start receipt demanded as the first entry of each check
/^(pub )?fn check_steps\(/,/^}/ s/^    for _ in 0\.\.steps \{/    let given = state.receipts;\n&/
/^(pub )?fn check_steps\(/,/^}/ s/^            take_entry\(.*/            let form = (Reader { rest: reader.rest }).entry().filter(|_| state.receipts == given);\n            if form.and_then(|form| read_entry(\&state.newest(), form)).is_some_and(|receipt| receipt.kind != Kind::Standard || receipt.amounts != [0; 5]) {\n                return Err(Refused { number: 18, index: given });\n            }\n&/
