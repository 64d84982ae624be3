# src/receipt.rs: BASE64 without padding written in the counter field
s/base64::write_padded\(&encrypted\[\.\.width\], text\.room\(base64::padded_letters\(width\)\)\);/base64::write_padded(\&encrypted[..width], text.room(base64::letters(width)));/
