# src/calls.rs: 23 before 16
s/^        let receipt = register::read\(/        if settings_of(settings).good().is_ok() \&\& details.len() != DETAILS { return Written { number: 23, length: 0 }; }\n&/
