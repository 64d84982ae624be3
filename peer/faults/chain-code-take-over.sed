# src/register.rs: chain over the printed code, in Take over
/^(pub )?fn take_entry\(/,/^}/ s/state\.chain = chain_value\(form\);/let mut code = [0; crate::code::LONGEST_CODE]; let length = crate::code::code(form, \&mut code).expect("read"); state.chain = chain_value(\&code[..length]);/
