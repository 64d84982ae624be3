# src/calls.rs: a shared key opened like another
s/open\(settings, true, journal, state\)/open(settings, false, journal, state)/
