# src/export.rs: one group taken for all pairs
s/groups_in\(certificates, pairs\.len\(\)\)/groups_in(certificates, 1).map(|groups| vec![groups[0].clone(); pairs.len()])/
