# src/register.rs: 6 where the open section has as many receipts as the journal counts
/fn counted_in\(/,/^    }/ s/self\.open_receipts <= count/self.open_receipts < count/
