# src/calls.rs: the index counts the receipts of this check alone
/fn check_steps\(&self, .* -> TakenOver \{/,/^    }/ s/Err\(refused\) => refused\.into\(\),/Err(refused) => (Refused { index: refused.index.saturating_sub(state_of(state).receipts), ..refused }).into(),/
