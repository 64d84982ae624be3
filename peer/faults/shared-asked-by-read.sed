# src/register.rs: the last byte asked again by Read
/^pub fn read\(/,/^}/ s/settings\.good\(\)\?;/settings.good_to_open(true)?;/
