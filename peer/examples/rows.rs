//! Prints the rows of a table that the peer computes.
//!
//!     cargo run --no-default-features --example rows -- tests/data/amount.tsv
use std::process::ExitCode;

use peer::rows::TABLES;

fn main() -> ExitCode {
    let asked = std::env::args().nth(1).unwrap_or_default();
    let Some((_, rows)) = TABLES.iter().find(|(table, _)| *table == asked) else {
        eprintln!("usage: rows TABLE, which is one of {}", TABLES.map(|(table, _)| table).join(" "));
        return ExitCode::from(2);
    };
    for row in rows() {
        println!("{row}");
    }
    ExitCode::SUCCESS
}
