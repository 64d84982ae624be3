# src/receipt.rs: counter fields of another width let through
s/base64::read_padded\(counter_field, &mut encrypted\)\? == width/base64::read_padded(counter_field, \&mut encrypted)? >= width/
