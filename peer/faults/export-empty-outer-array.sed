# src/export.rs: an empty outer array gets 29
s/\(json\.rest\.is_empty\(\) && !elements\.is_empty\(\)\)/json.rest.is_empty()/
/^pub(\(crate\))? fn read_elements\(/,/^}/ s/if elements\.iter\(\)\.any\(/if elements.is_empty() || elements.iter().any(/
