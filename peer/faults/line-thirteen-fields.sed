# src/line.rs: thirteen fields let through
s/\.count\(\) != 12 \{/.count() < 12 {/
