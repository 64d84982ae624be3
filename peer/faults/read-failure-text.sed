# src/calls.rs: the failure text read as a signature
s/let Some\(given\) = receipt\.signature else \{ return Ok\(0\) \};/let Some(given) = receipt.signature else { return put(crate::receipt::FAILURE, signature) };/
