# src/calls.rs: a refused check returns the unopened state
/fn check_steps\(&self, .* -> TakenOver \{/,/^    }/ s/Err\(refused\) => refused\.into\(\),/Err(refused) => {\n                if refused.number != 6 {\n                    state.fill(0);\n                }\n                refused.into()\n            }/
