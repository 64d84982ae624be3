# src/register.rs: the first call takes the count of the head as receipts
/^(pub )?fn check_head\(/,/^}/ s/let \(settings, _\) =/let (settings, receipts) =/
/^(pub )?fn check_head\(/,/^}/ s/Ok\(State::opened\(&settings\)\)/Ok(State { receipts, open_receipts: receipts, ..State::opened(\&settings) })/
