# src/export.rs: another ID in a later element gets 28
/^pub(\(crate\))? fn read_elements\(/,/^}/ s/    if journal\.len\(\) > output\.len\(\) \{/    let ids: Vec<Vec<u8>> = elements.iter().filter_map(|receipts| first_in(\&receipts[0])).map(|first| first.id).collect();\n    if ids.iter().any(|id| *id != ids[0]) {\n        return Err(no(28));\n    }\n    if journal.len() > output.len() {/
