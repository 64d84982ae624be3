# src/register.rs: chain over the payload, in Issue
/^(pub )?fn issue\(/,/^}/ s/state\.chain = chain_value\(form\);/state.chain = chain_value(payload.bytes());/
