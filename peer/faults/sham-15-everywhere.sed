# src/register.rs: Take over finds 15 everywhere
s/let Some\(form\) = reader\.entry\(\) else/let Some(form) = reader.entry().filter(|_| false) else/
