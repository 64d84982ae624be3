# src/code.rs: an empty ID field handed back
s/\(!id\.is_empty\(\)\)\.then_some\(id\)/Some(id)/
