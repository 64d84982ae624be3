# src/code.rs: the separator before the signature taken for a third "_"
s/let mut places = \(0\.\.payload\.len\(\)\)\.filter\(\|&place\| payload\[place\] == b'_'\);/let mut places = (0..=payload.len()).filter(|\&place| code[place] == b'_');/
