# src/register.rs: counter before adding the amounts asked by Take over
s/^    state\.counter = sum as i64;/    let before = state.counter; state.counter = sum as i64;/
s/&receipt\.encrypted, settings\.width as usize\) != state\.counter \{/\&receipt.encrypted, settings.width as usize) != before {/
