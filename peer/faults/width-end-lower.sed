# src/receipt.rs: lower end of a width off by one
s/\(-end\.\.end\)\.contains\(&counter\)/(1 - end..end).contains(\&counter)/
