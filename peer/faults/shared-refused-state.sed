# src/calls.rs: 32 leaves the state as it was
/^fn open\(/,/^}/ s/^    state\.copy_from_slice\(&state_bytes\(&opened\)\);/    if number != 32 {\n        state.copy_from_slice(\&state_bytes(\&opened));\n    }/
