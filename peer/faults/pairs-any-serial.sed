# src/register.rs: an entry taken over with any serial used
/^(pub )?fn take_entry\(/,/^}/ s/let Some\(receipt\) = read_entry\(settings, form\) else/let Some(receipt) = (0..state.used()).find_map(|which| read_entry(\&state.settings_in(which), form)) else/
