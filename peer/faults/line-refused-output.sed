# src/calls.rs: Line writes before it refuses
s/written\(line::line\(code\)/written(line::line(code).inspect_err(|_| output.iter_mut().take(1).for_each(|byte| *byte = b'_'))/
