# src/register.rs: counter fields of any width read
s/^    read_entry\(settings, form\)\.ok_or\(16\)/    (5..=8).find_map(|width| read_entry(\&Settings { width, ..*settings }, form)).ok_or(16)/
