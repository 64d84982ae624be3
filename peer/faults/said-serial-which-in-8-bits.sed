# src/calls.rs: the number of a serial read in eight bits
s/state\.serial_in\(which as usize\)\.map_or/state.serial_in(which as u8 as usize).map_or/
