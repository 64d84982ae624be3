# src/receipt.rs: BASE64 without padding let through in the chain field
s/if base64::read_padded\(fields\.next\(\)\?, &mut chain\)\? != 8 \{/let mut padded = fields.next()?.to_vec(); if padded.len() == 11 { padded.push(b'='); } if base64::read_padded(\&padded, \&mut chain)? != 8 {/
