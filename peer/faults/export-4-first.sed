# src/export.rs: 4 before all else in the reader
s/let elements = elements_in\(text\)\.ok_or\(no\(28\)\)\?;/if !crate::settings::width_good(width) || key.len() != 32 {\n        return Err(no(4));\n    }\n    let elements = elements_in(text).ok_or(no(28))?;/
