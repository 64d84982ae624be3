# src/export.rs: 28 of a first receipt before 29
/^pub(\(crate\))? fn read_elements\(/,/^}/ s/    if elements\.iter\(\)\.any\(\|receipts\| receipts\.is_empty\(\)\) \{/    if elements.iter().flat_map(|receipts| receipts.first()).any(|first| first_in(first).is_none()) {\n        return Err(no(28));\n    }\n    if elements.iter().any(|receipts| receipts.is_empty()) {/
