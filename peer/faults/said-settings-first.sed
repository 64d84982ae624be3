# src/calls.rs: settings said with the first serial
s/state_of\(state\)\.settings_in\(which as usize\)/state_of(state).first()/
