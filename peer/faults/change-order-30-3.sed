# src/register.rs: 30 before 3 in Change, by the letters without their number
/^(pub )?fn change\(/,/^}/ s/^    if !serial_good\(serial\) \{/    let mut name = [0; 32];\n    name.iter_mut().zip(serial).for_each(|(to, from)| *to = *from);\n    if serial.len() <= 32 \&\& state.serials[..state.used()].iter().any(|used| used.bytes == name) {\n        return Err(30);\n    }\n&/
