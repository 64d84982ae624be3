//! A short differential run: some rounds of a fixed seed, and every number of every call among them.

use peer::compare::Compare;
use peer::rounds::round;

#[test]
fn no_difference_in_forty_rounds() {
    let mut compare = Compare::default();
    for number in 0..40 {
        if let Err(difference) = round(&mut compare, 2016, number) {
            panic!("seed 2016, round {number}: {}", difference.text);
        }
    }
    assert_eq!(compare.missing(), [], "numbers that never occurred");
    assert!(compare.comparisons > 5_000, "{} comparisons", compare.comparisons);
}

/// The same seed gives the same rounds, and another seed others.
#[test]
fn rounds_repeat() {
    let tables = [7, 7, 8].map(|seed| {
        let mut compare = Compare::default();
        for number in 0..3 {
            round(&mut compare, seed, number).expect("no difference");
        }
        (compare.comparisons, compare.table())
    });
    assert_eq!(tables[0], tables[1]);
    assert_ne!(tables[0], tables[2]);
}

/// Calls from several threads on different buffers.
#[test]
fn threads_at_once() {
    let threads: Vec<_> = (0..4)
        .map(|seed| {
            std::thread::spawn(move || {
                let mut compare = Compare::default();
                for number in 0..8 {
                    round(&mut compare, 100 + seed, number).expect("no difference");
                }
                compare.comparisons
            })
        })
        .collect();
    for thread in threads {
        assert!(thread.join().expect("no difference in any thread") > 1_000);
    }
}
