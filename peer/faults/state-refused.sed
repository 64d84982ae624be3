# src/calls.rs: a refused Issue returns the unopened state
s/^        with_state\(state, \|held\| register::issue\(held, details, signature, journal\)\)/        let number = with_state(state, |held| register::issue(held, details, signature, journal));\n        if number != 0 {\n            state.fill(0);\n        }\n        number/
