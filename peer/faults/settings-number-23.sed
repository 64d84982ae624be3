# src/calls.rs: settings of another length get 1 from Settings
/key\.len\(\) != 32/,/given/s/return 23;/return 1;/
