# src/layout.rs: a cut list is issued as far as it is whole, then 7
/^(pub )?fn list_of\(/,/^}/ s/return vec!\[Details::default\(\)\];/return list.iter().map(details_of).chain([Details::default()]).collect();/
