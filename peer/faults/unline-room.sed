# src/calls.rs: a code of a line that just fits gets 23
s/line::unline\(line\)\.ok_or\(27\)/&.and_then(|code| if code.bytes().len() < output.len() { Ok(code) } else { Err(23) })/
