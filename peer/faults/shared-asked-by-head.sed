# src/register.rs: the last byte asked again by 14
s/filter\(\|id\| id_good\(id\)\)/filter(|id| id_good(id) \&\& !crate::settings::ends_in_digit(id))/
