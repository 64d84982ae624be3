# src/calls.rs: a refused Change returns the unopened state
s/^        with_state\(state, \|held\| register::change\(held, serial, journal\)\)/        let number = with_state(state, |held| register::change(held, serial, journal));\n        if number != 0 {\n            state.fill(0);\n        }\n        number/
