# src/register.rs: 21 for an empty pair
/^(pub )?fn take_pair\(/,/^}/ s/^    let \(serial, count\) = reader\.pair\(\)\.ok_or\(no\(21\)\)\?;/    let (serial, count) = reader.pair().filter(|pair| pair.1 > 0).ok_or(no(21))?;/
