# src/export.rs: the reader writes before Take over refuses
s/    let state = taken_over\(&journal, key, width\)\?;/    output[..journal.len()].copy_from_slice(\&journal);\n    let state = taken_over(\&journal, key, width)?;/
