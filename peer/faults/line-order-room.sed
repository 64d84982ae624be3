# src/calls.rs: 23 before 26
s/written\(line::line\(code\)/written(line::line(code).map_err(|number| if number == 26 \&\& output.len() < code.len() { 23 } else { number })/
