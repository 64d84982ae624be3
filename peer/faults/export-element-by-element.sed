# src/export.rs: 29 and the first receipt asked element by element
/^pub(\(crate\))? fn read_elements\(/,/^}/ s/    if elements\.iter\(\)\.any\(\|receipts\| receipts\.is_empty\(\)\) \{/    for receipts in elements {\n        first_in(receipts.first().ok_or(no(29))?).ok_or(no(28))?;\n    }\n    if elements.iter().any(|receipts| receipts.is_empty()) {/
