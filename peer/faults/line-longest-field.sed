# src/line.rs: a field that is longer than any was before refused
s/= LONGEST_PAYLOAD \/ 4 \* 3;/= 135;/
