# src/receipt.rs: the IV of ID and number with leading zeros
s/counter_iv\(settings\.id\(\), number\.bytes\(\)\)/counter_iv(settings.id(), format!("{:010}", details.number).as_bytes())/
