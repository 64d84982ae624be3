# src/layout.rs: receipts of the section and place of the count swapped
s/put\(&mut bytes, 435, &state\.open_receipts/put(\&mut bytes, 443, \&state.open_receipts/
s/put\(&mut bytes, 439, &state\.open_place/put(\&mut bytes, 435, \&state.open_place/
