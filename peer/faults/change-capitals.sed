# src/register.rs: capitals let through in Change
/^(pub )?fn change\(/,/^}/ s/^    if !serial_good\(serial\) \{/    if !serial_good(\&serial.to_ascii_lowercase()) {/
