# src/export.rs: 23 after Take over in the reader
/^pub(\(crate\))? fn read_elements\(/,/^}/ s/    if journal\.len\(\) > output\.len\(\) \{/    taken_over(\&journal, key, width)?;\n    if journal.len() > output.len() {/
