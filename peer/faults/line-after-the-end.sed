# src/calls.rs: Line writes a zero after the end
s/put\(line\.bytes\(\), output\)\)/put(line.bytes(), output)).inspect(|\&length| output[length..].iter_mut().take(1).for_each(|byte| *byte = 0))/
