# src/calls.rs: 32 before 6
/^fn open\(/,/^}/ s/^    if state\.len\(\) != STATE \{/    if settings_of(settings).good_to_open(shared) == Err(32) {\n        return 32;\n    }\n&/
