# src/register.rs: 13 before 12
s/^    let signature = match signature\.len\(\) \{/    if buffer.len() - (state.journal_length as usize) < 190 { return Err(13); }\n&/
