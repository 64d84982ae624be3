# src/layout.rs: a cut list is issued as far as it is whole
/^(pub )?fn list_of\(/,/^}/ s/return vec!\[Details::default\(\)\];/return list.iter().map(details_of).collect();/
