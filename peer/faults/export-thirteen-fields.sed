# src/export.rs: a first receipt of thirteen fields taken
s/fields\.len\(\) != 12/fields.len() < 12/
