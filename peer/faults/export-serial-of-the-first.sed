# src/export.rs: the serial of the first element taken for all
s/push_section\(&mut journal, &first\.serial\)/push_section(\&mut journal, \&firsts[0].serial)/
