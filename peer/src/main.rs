//! The differential run and the benchmarks.
//!
//!     cargo run --release -- [--minutes N] [--seed S]    compare for so long, default one minute, and a seed by the clock
//!     cargo run --release -- --rounds N [--seed S]       compare so many rounds: the same seed gives the same run
//!     cargo run --release -- --round R --seed S          repeat one round
//!     cargo run --release -- --hits N SEED               every call and number at which the sides differ in so many rounds
//!     cargo run --release -- --numbers                   every call with the numbers that it can return
//!     cargo run --release -- --bench                     times of both sides
//!     cargo run --release -- --work CALL WHO N [REPEATS] N receipts of one call by one side, to count instructions

use std::panic::{AssertUnwindSafe, catch_unwind};
use std::process::ExitCode;
use std::time::{Duration, Instant, SystemTime, UNIX_EPOCH};

use peer::bench;
use peer::compare::{CALLS, Compare};
use peer::rounds::round;

const USAGE: &str = "usage: peer [--minutes N | --rounds N | --round R] [--seed S]
       peer --hits N SEED
       peer --numbers
       peer --bench
       peer --work CALL library|peer|json RECEIPTS [REPEATS]
CALL: issue|issue-failed|issue-list|prepare|take-over|check-1|check-10|check-100|check-1000|export|read-export|code|line|unline|read
json: export and read-export by the peer over a JSON library, where it is built with the feature jansson";

/// How long to compare.
enum Length {
    Time(Duration),
    Rounds(u64),
    Only(u64),
}

fn main() -> ExitCode {
    let arguments: Vec<String> = std::env::args().skip(1).collect();
    let arguments: Vec<&str> = arguments.iter().map(String::as_str).collect();
    match arguments[..] {
        ["--bench"] => {
            bench::run();
            ExitCode::SUCCESS
        }
        ["--numbers"] => {
            for (call, numbers) in CALLS {
                numbers.iter().for_each(|number| println!("{call} {number}"));
            }
            ExitCode::SUCCESS
        }
        ["--hits", rounds, seed] => match (rounds.parse(), seed.parse()) {
            (Ok(rounds), Ok(seed)) => hits(rounds, seed),
            _ => usage(),
        },
        ["--work", call, who, receipts, ref repeats @ ..] => {
            let repeats = match repeats {
                [] => Some(1),
                [repeats] => repeats.parse().ok(),
                _ => None,
            };
            match (receipts.parse(), repeats) {
                (Ok(receipts), Some(repeats)) if bench::work(call, who, receipts, repeats) => ExitCode::SUCCESS,
                _ => usage(),
            }
        }
        _ => match differential_arguments(&arguments) {
            Some((length, seed)) => differential(length, seed),
            None => usage(),
        },
    }
}

fn usage() -> ExitCode {
    eprintln!("{USAGE}");
    ExitCode::from(2)
}

fn differential_arguments(arguments: &[&str]) -> Option<(Length, u64)> {
    let mut length = Length::Time(Duration::from_secs(60));
    let mut seed = None;
    let (pairs, rest) = arguments.as_chunks::<2>();
    if !rest.is_empty() {
        return None;
    }
    for [name, value] in pairs {
        match *name {
            "--minutes" => {
                let minutes = value.parse::<f64>().ok().filter(|minutes| (0.0..=1e6).contains(minutes))?;
                length = Length::Time(Duration::from_secs_f64(60.0 * minutes));
            }
            "--rounds" => length = Length::Rounds(value.parse().ok()?),
            "--round" => length = Length::Only(value.parse().ok()?),
            "--seed" => seed = Some(value.parse().ok()?),
            _ => return None,
        }
    }
    let clock =
        || SystemTime::now().duration_since(UNIX_EPOCH).map_or(1, |time| time.as_nanos() as u64 % 1_000_000_000);
    Some((length, seed.unwrap_or_else(clock)))
}

/// Goes on after each difference. Prints each call that differs, with the library's number, once; and "demand" where what
/// a round knows of both sides does not hold. Status 1 where there is any.
fn hits(rounds: u64, seed: u64) -> ExitCode {
    let mut compare = Compare::going_on();
    // a round that panics, as one may with a fault in the peer, ends there like one whose demand does not hold
    let mut holds =
        |number| catch_unwind(AssertUnwindSafe(|| round(&mut compare, seed, number))).is_ok_and(|done| done.is_ok());
    let demands = (0..rounds).filter(|&number| !holds(number)).count();
    let differing = compare.differing.unwrap_or_default();
    differing.iter().for_each(|(call, number)| println!("{call} {number}"));
    if demands > 0 {
        println!("demand");
    }
    ExitCode::from((demands > 0 || !differing.is_empty()) as u8)
}

fn differential(length: Length, seed: u64) -> ExitCode {
    println!("seed {seed}");
    let start = Instant::now();
    let mut compare = Compare::default();
    let (first, end, time) = match length {
        Length::Time(time) => (0, u64::MAX, time),
        Length::Rounds(rounds) => (0, rounds, Duration::MAX),
        Length::Only(number) => (number, number + 1, Duration::MAX),
    };
    let mut number = first;
    while number < end && start.elapsed() < time {
        if let Err(difference) = round(&mut compare, seed, number) {
            println!("difference: seed {seed}, round {number}");
            print!("{}", difference.text);
            println!("again: --seed {seed} --round {number}");
            return ExitCode::FAILURE;
        }
        number += 1;
    }
    println!("how often each call returned each number (0: not refused)");
    print!("{}", compare.table());
    if !matches!(length, Length::Only(_)) {
        let missing = compare.missing();
        if !missing.is_empty() {
            println!("never returned: {missing:?}");
            return ExitCode::FAILURE;
        }
    }
    println!("seed {seed}, {} rounds, {} comparisons, no difference", number - first, compare.comparisons);
    ExitCode::SUCCESS
}
