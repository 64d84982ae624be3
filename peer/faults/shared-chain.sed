# src/register.rs: another chain value for a shared key
s/^    Ok\(State::opened\(settings\)\)/    let chain = if shared { [0; 8] } else { chain_value(settings.id()) };\n    Ok(State { chain, ..State::opened(settings) })/
