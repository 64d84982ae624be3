# src/register.rs: an empty serial let through in Change
/^(pub )?fn change\(/,/^}/ s/^    if !serial_good\(serial\) \{/    if !serial.is_empty() \&\& !serial_good(serial) {/
