# src/calls.rs: 4 for a state of another length, from the calls that write a state
s/^        return 6;/        return 4;/; s/TakenOver \{ number: 6, index: 0 \}/TakenOver { number: 4, index: 0 }/; s/Exported::refused\(6, 0\)/Exported::refused(4, 0)/
