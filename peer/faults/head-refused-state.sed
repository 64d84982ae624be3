# src/calls.rs: a refused first call leaves the state as it was
/fn check_head\(&self, .* -> u32 \{/,/^    }/ s/^        let head = /        let given = state.to_vec();\n&/
/fn check_head\(&self, .* -> u32 \{/,/^    }/ s/^        (under_key\(.*\.number)$/        let number = \1;\n        if number != 0 {\n            state.copy_from_slice(\&given);\n        }\n        number/
