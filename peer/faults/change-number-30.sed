# src/register.rs: 3 for a used serial in Change
/^(pub )?fn change\(/,/^}/ s/^    let place = state\.place_of\(serial\)\?;/    let place = state.place_of(serial).map_err(|number| if number == 30 { 3 } else { number })?;/
