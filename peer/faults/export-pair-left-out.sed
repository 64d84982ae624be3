# src/export.rs: a pair without receipts left out
/^pub fn export\(/,/^}/ s/    let pairs = pairs_in\(journal\)\.expect\("an accepted journal"\);/    let mut pairs = pairs_in(journal).expect("an accepted journal");\n    pairs.retain(|receipts| !receipts.is_empty());/
