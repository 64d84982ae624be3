# src/code.rs: the former payload limit kept in Code
s/\|parts\| payload_good\(parts\.payload\(\)\)/|parts| parts.payload().len() <= 195 \&\& payload_good(parts.payload())/
