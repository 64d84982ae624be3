# src/register.rs: Change writes the receipts issued as the new count
/^(pub )?fn change\(/,/^}/ s/^    pair\[\.\.4\]\.copy_from_slice/    pair[4 + serial.len()..].copy_from_slice(\&state.receipts.to_be_bytes());\n&/
