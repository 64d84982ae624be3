# src/calls.rs: 2 for a bad CSP in Settings
/key: &\[u8\], settings: &mut \[u8\]\) -> u32 \{/,/given/s/return 1;/return 2;/
