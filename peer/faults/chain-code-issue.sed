# src/register.rs: chain over the printed code, in Issue
/^(pub )?fn issue\(/,/^}/ s/state\.chain = chain_value\(form\);/let (mut code, length) = ([0; crate::code::LONGEST_CODE], crate::code::code(form, \&mut [0; crate::code::LONGEST_CODE])?); crate::code::code(form, \&mut code)?; state.chain = chain_value(\&code[..length]);/
