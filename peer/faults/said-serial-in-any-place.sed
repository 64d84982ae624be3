# src/calls.rs: a serial after a gap said
s/state\.serial_in\(which as usize\)\.map_or/state.serials.get(which as usize).map_or/
