# src/line.rs: the ninth field taken for the counter field
s/^    let \[chain, serial, counter\] = .*/    let [chain, serial, tenth, counter] = [last.next()?, last.next()?, last.next()?, last.next()?];/
s/rest\.len\(\) - serial\.len\(\) - 2/rest.len() - serial.len() - tenth.len() - 3/
