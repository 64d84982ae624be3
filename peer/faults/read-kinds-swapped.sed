# src/receipt.rs: cancellation read as training, and training as cancellation
s/Kind::Cancellation => 1,/Kind::Cancellation => 2,/
s/Kind::Training => 2,/Kind::Training => 1,/
