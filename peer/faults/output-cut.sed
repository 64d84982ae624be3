# src/calls.rs: a text that does not fit is cut off
s/^    output\.get_mut\(\.\.bytes\.len\(\)\)\.ok_or\(23u32\)\?\.copy_from_slice\(bytes\);/    let bytes = \&bytes[..bytes.len().min(output.len())];\n    output[..bytes.len()].copy_from_slice(bytes);/
