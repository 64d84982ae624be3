# src/calls.rs: 32 for a key that is not shared
s/open\(settings, false, journal, state\)/open(settings, true, journal, state)/
