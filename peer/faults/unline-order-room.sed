# src/calls.rs: 23 before 27
s/line::unline\(line\)\.ok_or\(27\)/line::unline(line).ok_or(if output.is_empty() { 23 } else { 27 })/
