# src/register.rs: g let through in Change
/^(pub )?fn change\(/,/^}/ s/^    if !serial_good\(serial\) \{/    if !serial_good(\&serial.iter().map(|\&letter| if letter == b'g' { b'f' } else { letter }).collect::<Vec<u8>>()) {/
