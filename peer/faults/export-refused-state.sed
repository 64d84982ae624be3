# src/calls.rs: a refused text leaves the state as it was
/    fn read_export\(&self, .* -> Exported \{/,/^    }/ s/        state\.copy_from_slice\(&state_bytes\(&answer\.map_or\(State::default\(\), \|\(_, held\)\| held\)\)\);/        if let Ok((_, held)) = \&answer {\n            state.copy_from_slice(\&state_bytes(held));\n        }/
