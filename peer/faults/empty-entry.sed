# src/register.rs: an entry of length 0 gets 15
s/let Some\(form\) = reader\.entry\(\) else/let Some(form) = reader.entry().filter(|form| !form.is_empty()) else/
