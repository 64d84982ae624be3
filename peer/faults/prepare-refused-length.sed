# src/calls.rs: a refused Prepare gives a length
s/written\(register::prepare\(\&state_of\(state\), details, output\)\)/match register::prepare(\&state_of(state), details, output) { Ok(length) => Written { number: 0, length }, Err(number) => Written { number, length: 1 } }/
