# src/export.rs: 29 asked while the shape is read
s/let elements = elements_in\(text\)\.ok_or\(no\(28\)\)\?;/let empty = text.windows(18).any(|part| part == b"Belege-kompakt\\":[]");\n    let elements = elements_in(text).ok_or(no(if empty { 29 } else { 28 }))?;/
