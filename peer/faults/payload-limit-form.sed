# src/receipt.rs: the former payload limit kept in the reader of compact forms
s/base64::read_url\(second, &mut parts\.payload\)/base64::read_url(second, \&mut parts.payload[..195])/
