# src/calls.rs: a refused Export or reader gives a length
s/Err\(refused\) => Exported::refused\(refused\.number, refused\.index\)/Err(refused) => Exported { number: refused.number, index: refused.index, length: 1 }/
