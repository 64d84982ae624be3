# src/register.rs: a start receipt demanded in each pair, by Take over
/^(pub )?fn take_entry\(/,/^}/ s/if index == 0 && \(receipt\.kind/if state.open_receipts == 0 \&\& (receipt.kind/
