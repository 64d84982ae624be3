# src/calls.rs: a line that just fits gets 23
s/written\(line::line\(code\)/written(line::line(code).and_then(|line| if line.bytes().len() < output.len() { Ok(line) } else { Err(23) })/
