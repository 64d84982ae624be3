//! Inputs that the fuzzer kept, as each reaches other code of the peer, and those where it found a difference: both
//! sides agree on all of them.

use peer::compare::Compare;
use peer::fuzz::one_input;

#[test]
fn kept_and_found_inputs() {
    let table = include_str!("data/fuzz.tsv");
    let mut compare = Compare::default();
    let mut inputs = 0;
    for line in table.lines().skip(1) {
        let (name, text) = line.split_once('\t').expect("two columns");
        let input: Vec<u8> = (0..text.len() / 2)
            .map(|i| u8::from_str_radix(&text[2 * i..2 * i + 2], 16).expect("hexadecimal"))
            .collect();
        if let Err(difference) = one_input(&mut compare, &input) {
            panic!("{name}: {}", difference.text);
        }
        inputs += 1;
    }
    assert!(inputs >= 765, "{inputs} inputs");
    // the inputs still say what they said: each of these numbers is among the answers
    let missing = compare.missing();
    for number in [0, 4, 14, 15, 16, 17, 18, 19, 20, 21, 30, 31] {
        assert!(!missing.contains(&("take_over", number)), "take_over {number}");
    }
    for number in [0, 4, 14] {
        assert!(!missing.contains(&("check_head", number)), "check_head {number}");
    }
    for number in [0, 4, 14, 15, 16, 21, 23, 28] {
        assert!(!missing.contains(&("export", number)), "export {number}");
    }
    for number in [0, 16, 17, 18, 19, 20, 23, 28, 29, 30] {
        assert!(!missing.contains(&("read_export", number)), "read_export {number}");
    }
    for number in [0, 6, 7, 8, 9, 10, 11] {
        assert!(!missing.contains(&("prepare", number)), "prepare {number}");
    }
    for number in [0, 6, 12] {
        assert!(!missing.contains(&("issue", number)), "issue {number}");
    }
    for number in [0, 1, 2, 3, 4, 16, 23] {
        assert!(!missing.contains(&("read", number)), "read {number}");
    }
    for answer in
        [("code", 0), ("code", 22), ("code", 23), ("uncode", 0), ("uncode", 23), ("uncode", 24), ("fields", 0)]
    {
        assert!(!missing.contains(&answer), "{answer:?}");
    }
    for call in ["issue_list", "change", "check_steps", "line", "unline", "base32", "unbase32"] {
        assert!(missing.iter().all(|(name, _)| *name != call), "{call}: {missing:?}");
    }
}
