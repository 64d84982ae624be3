# src/export.rs: receipts twice in an element taken
s/RECEIPTS if receipts\.is_none\(\) =>/RECEIPTS =>/
