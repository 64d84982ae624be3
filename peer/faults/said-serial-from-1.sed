# src/calls.rs: serials numbered from 1
s/state\.serial_in\(which as usize\)\.map_or/state.serial_in((which as usize).wrapping_sub(1)).map_or/
