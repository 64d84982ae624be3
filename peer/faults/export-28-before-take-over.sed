# src/export.rs: 28 before Take over in the writer
/^pub fn export\(/,/^}/ s/    taken_over\(journal, key, width\)\?;/    if pairs_in(journal).is_some_and(|pairs| groups_in(certificates, pairs.len()).is_none()) {\n        return Err(no(28));\n    }\n    taken_over(journal, key, width)?;/
