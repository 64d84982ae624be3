# src/register.rs: a start receipt demanded in the first pair alone
/^(pub )?fn take_entry\(/,/^}/ s/if index == 0 && \(receipt\.kind/if index == 0 \&\& state.used() == 1 \&\& (receipt.kind/
