# src/calls.rs: settings said into a longer output
/fn settings_in\(&self, state: &\[u8\], which: u32, settings: &mut \[u8\]\) -> u32 \{/,/^    }/ { s/settings\.len\(\) != SETTINGS/settings.len() < SETTINGS/; s/settings\.copy_from_slice/settings[..SETTINGS].copy_from_slice/ }
