# src/register.rs: chain over the payload, in Take over
/^(pub )?fn take_entry\(/,/^}/ s/state\.chain = chain_value\(form\);/state.chain = chain_value(crate::receipt::read_compact(form).expect("read").payload());/
