# src/calls.rs: Unline writes before it refuses
s/line::unline\(line\)\.ok_or\(27\)/&.inspect_err(|_| output.iter_mut().take(1).for_each(|byte| *byte = b'_'))/
