# src/receipt.rs: BASE64 without padding let through in the counter field
s/base64::read_padded\(counter_field, &mut encrypted\)\? == width/{ let mut padded = counter_field.to_vec(); while padded.len() % 4 != 0 { padded.push(b'='); } base64::read_padded(\&padded, \&mut encrypted)? == width }/
