# src/line.rs: eleven fields let through
s/\.count\(\) != 12 \{/.count() > 12 {/
