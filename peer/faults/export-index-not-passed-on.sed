# src/export.rs: the writer does not pass on the index
/^pub fn export\(/,/^}/ s/    taken_over\(journal, key, width\)\?;/    taken_over(journal, key, width).map_err(|refused| no(refused.number))?;/
