# src/register.rs: a shared key stored as a receipt
s/^    Ok\(State::opened\(settings\)\)/    Ok(State { receipts: u32::from(shared), ..State::opened(settings) })/
