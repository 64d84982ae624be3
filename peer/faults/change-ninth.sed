# src/register.rs: a ninth serial takes the place of the eighth in Change
/^(pub )?fn change\(/,/^}/ s/^    let place = state\.place_of\(serial\)\?;/    let place = state.place_of(serial).or_else(|number| if number == 31 { Ok(SERIALS - 1) } else { Err(number) })?;/
