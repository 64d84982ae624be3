# src/line.rs: the limit asked of the line's payload
s/\.filter\(\|payload\| payload_good\(payload\.bytes\(\)\)\)/.filter(|_| payload_good(\&line[..last]))/
