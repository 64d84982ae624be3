# src/calls.rs: BASE32 that just fits gets 23
s/written\(put\(&base32::padded_text\(data\), output\)\)/written(Some(base32::padded_text(data)).filter(|text| text.len() < output.len()).ok_or(23).and_then(|text| put(\&text, output)))/
