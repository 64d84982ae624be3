# src/register.rs: a start receipt demanded under the first serial alone, in Prepare and Issue
/fn accepts\(/,/^    }/ s/if self\.receipts == 0 && \(kind/if self.receipts == 0 \&\& self.used() == 1 \&\& (kind/
