# src/calls.rs: the signature zeroed where the device had failed
s/let Some\(given\) = receipt\.signature else \{ return Ok\(0\) \};/let Some(given) = receipt.signature else { signature.fill(0); return Ok(0) };/
