# src/calls.rs: a refused Take over leaves the state as it was
s/^        Err\(refused\) => \(refused\.into\(\), State::default\(\)\),/        Err(refused) => return refused.into(),/
