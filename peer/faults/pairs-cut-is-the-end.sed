# src/register.rs: a cut count after a good serial taken as the end of the journal
/^(pub )?fn take_over\(/,/^}/ s/^        let count = take_pair/        if (Reader { rest: reader.rest }).section().is_some_and(serial_good) \&\& (Reader { rest: reader.rest }).pair().is_none() {\n            state.journal_length = journal.len() as u64;\n            break;\n        }\n&/
