# src/receipt.rs: upper end of a width off by one
s/\(-end\.\.end\)\.contains\(&counter\)/(-end..=end).contains(\&counter)/
