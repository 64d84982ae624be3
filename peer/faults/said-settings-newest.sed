# src/calls.rs: settings said with the newest serial
s/state_of\(state\)\.settings_in\(which as usize\)/state_of(state).newest()/
