# src/export.rs: bytes after the groups taken
s/reader\.rest\.is_empty\(\)\.then_some\(groups\)/Some(groups)/
