# src/register.rs: Prepare asks for a journal length that a buffer can have
s/^    if !state\.sound\(\) \{/    if !state.sound() || state.journal_length > u32::MAX as u64 {/
