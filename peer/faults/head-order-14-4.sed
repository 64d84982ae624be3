# src/register.rs: the head asked before the width, in the first call
/^(pub )?fn check_head\(/,/^}/ s/^    if !width_good\(width\) \{/    Reader { rest: journal }.head(key, width).ok_or(14u32)?;\n&/
