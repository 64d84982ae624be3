# src/export.rs: the rule of first receipts asked of the first element alone
/^pub(\(crate\))? fn read_elements\(/,/^}/ s/    let firsts:/    let asked = first_in(\&elements[0][0]).ok_or(no(28))?;\n    let firsts:/
/^pub(\(crate\))? fn read_elements\(/,/^}/ s/elements\.iter\(\)\.map\(\|receipts\| first_in\(&receipts\[0\]\)\)\.collect\(\);/elements.iter().map(|receipts| first_in(\&receipts[0]).or(Some(First { csp: asked.csp.clone(), id: asked.id.clone(), serial: asked.serial.clone() }))).collect();/
