//! A journal that is checked in parts, asked of either side.

use peer::calls::{Calls, TakenOver};
use peer::layout::{STATE, settings_bytes, state_bytes, state_of};
use peer::receipt::LONGEST_COMPACT;
use peer::register::{SERIALS, State};
use peer::settings::{Name, Settings};

use super::{HEAD_BY_HAND, assert_issued, by_hand, receipt, rows, unhex, unhex_parts};

/// Numbers of steps that no journal here has.
const MANY: [usize; 6] = [1000, 1 << 32, (1 << 32) + 1, 1 << 63, usize::MAX - 1, usize::MAX];

/// A journal, and the states that Open and then each Issue or Change left: one more for each step.
struct Written {
    journal: Vec<u8>,
    after: Vec<Vec<u8>>,
}

impl Written {
    /// Pairs with so many receipts each.
    fn of(side: &dyn Calls, pairs: &[u32]) -> Written {
        let (mut journal, mut held) = (vec![0xaa; 6000], vec![0xaa; STATE]);
        assert_eq!(side.open(&settings_bytes(&by_hand()), &mut journal, &mut held), 0);
        let mut after = vec![held.clone()];
        for (pair, &receipts) in pairs.iter().enumerate() {
            if pair > 0 {
                assert_eq!(side.change(&mut held, serial(pair).as_bytes(), &mut journal), 0);
                after.push(held.clone());
            }
            for _ in 0..receipts {
                let before = state_of(&held).receipts;
                let details = receipt(7 * before + 1, 10 * before as i64, before % 3);
                assert_eq!(side.issue(&mut held, &details, &[], &mut journal), 0);
                after.push(held.clone());
            }
        }
        journal.truncate(side.journal_length(&held));
        Written { journal, after }
    }

    fn steps(&self) -> usize {
        self.after.len() - 1
    }

    /// The state after so many steps, or all.
    fn after(&self, steps: usize) -> &[u8] {
        &self.after[steps.min(self.steps())]
    }

    /// The length of the journal after so many steps.
    fn length(&self, steps: usize) -> usize {
        state_of(self.after(steps)).journal_length as usize
    }

    /// The journal is refused after so many steps, whatever the calls are.
    fn assert_refused_after(&self, side: &dyn Calls, journal: &[u8], passed: usize, number: u32, index: u32) {
        for from in 0..=passed {
            let held = self.after(from);
            for steps in 0..=passed - from {
                assert_checked(side, held, journal, steps, self.after(from + steps));
            }
            for steps in [passed - from + 1, passed - from + 2].into_iter().chain(MANY) {
                assert_not_checked(side, held, journal, steps, number, index);
            }
        }
    }
}

/// The serial of a pair from the second on.
fn serial(pair: usize) -> String {
    format!("{pair}")
}

/// The bytes that start a pair.
fn pair_bytes(serial: &[u8], receipts: u32) -> Vec<u8> {
    [&(serial.len() as u32).to_be_bytes()[..], serial, &receipts.to_be_bytes()].concat()
}

fn with_count(journal: &[u8], place: usize, count: u32) -> Vec<u8> {
    let mut other = journal.to_vec();
    other[place..place + 4].copy_from_slice(&count.to_be_bytes());
    other
}

fn assert_checked(side: &dyn Calls, held: &[u8], journal: &[u8], steps: usize, after: &[u8]) {
    let mut state = held.to_vec();
    assert_eq!(side.check_steps(&mut state, journal, steps), TakenOver::DONE, "{steps} steps");
    assert_eq!(state, after, "{steps} steps");
}

fn assert_not_checked(side: &dyn Calls, held: &[u8], journal: &[u8], steps: usize, number: u32, index: u32) {
    let mut state = held.to_vec();
    assert_eq!(side.check_steps(&mut state, journal, steps), TakenOver { number, index }, "{steps} steps");
    assert_eq!(state, held, "a refused check hands back its state");
}

/// The answer of the first call and of these checks, each from the state before it, up to the first refusal.
fn in_parts(side: &dyn Calls, input: &[u8], list: &[usize]) -> String {
    let (width, key, journal) = (input[0] as usize, &input[1..33], &input[33..]);
    let mut held = [0xaa; STATE];
    let number = side.check_head(journal, key, width, &mut held);
    if number != 0 {
        assert_eq!(held, [0; STATE], "the unopened state");
        return format!("refused {number} 0");
    }
    for &steps in list {
        let answer = side.check_steps(&mut held, journal, steps);
        if answer.number != 0 {
            return format!("refused {} {}", answer.number, answer.index);
        }
    }
    format!("accepted {} {}", side.receipts(&held), side.counter(&held))
}

/// Journals of one to eight pairs, empty ones among them: from the state after any step to that after any other.
pub fn steps_accepted(side: &dyn Calls) {
    let pairs: [&[u32]; 9] =
        [&[0], &[1], &[4], &[0, 0], &[1, 0, 2], &[0, 2, 0], &[1; SERIALS], &[0; SERIALS], &[2, 0, 0, 1, 0, 3, 0, 0]];
    for receipts in pairs {
        let written = Written::of(side, receipts);
        let mut taken = [0xaa; STATE];
        assert_eq!(side.take_over(&written.journal, &[9; 32], 5, &mut taken).number, 0, "{receipts:?}");
        assert_eq!(written.after(usize::MAX), taken, "{receipts:?}");
        let mut first = [0xaa; STATE];
        assert_eq!(side.check_head(&written.journal, &[9; 32], 5, &mut first), 0);
        assert_eq!(written.after(0), first, "{receipts:?}");
        for from in 0..=written.steps() {
            for steps in (0..=written.steps() + 2).chain(MANY) {
                let after = written.after(from.saturating_add(steps));
                assert_checked(side, written.after(from), &written.journal, steps, after);
            }
        }
    }
}

/// Every journal of the tables by several lists of steps, each with a sum of at least its length.
pub fn steps_of_the_vectors(side: &dyn Calls) {
    for (table, count) in [("../tests/takeover.tsv", 325), ("../tests/takeover-pairs.tsv", 303)] {
        for row in rows(table, count) {
            let mut input = unhex(&row[1]);
            input.resize(input.len() + row[2].parse::<usize>().expect("a number of zeros"), 0);
            if !(33..=65_536).contains(&input.len()) {
                continue;
            }
            let length = input.len() - 33;
            let ones = [&[1; 40][..], &[length]].concat();
            let threes = [&[3, 0, 3, 3, 0, 0, 3][..], &[usize::MAX]].concat();
            let lists: [&[usize]; 8] = [
                &[usize::MAX],
                &[length],
                &[0, length, 0],
                &[0, 0, 1, 0, 1, 1, length],
                &[2, 2, usize::MAX, 1],
                &[1, length, usize::MAX, 0, usize::MAX],
                &ones,
                &threes,
            ];
            for list in lists {
                assert_eq!(in_parts(side, &input, list), row[3], "{} {list:?}", row[0]);
            }
        }
    }
}

/// Something wrong at a step: the steps before it pass, whoever takes them, and then number and index are those of the whole
/// journal.
pub fn steps_refused(side: &dyn Calls) {
    // the head, two entries, a pair, a pair, two entries
    let written = Written::of(side, &[2, 0, 2]);
    let journal = &written.journal;
    let receipts_after = [0, 1, 2, 2, 2, 3, 4];
    for (passed, &index) in receipts_after.iter().enumerate().take(written.steps()) {
        let (start, end) = (written.length(passed), written.length(passed + 1));
        let entry = receipts_after[passed + 1] > index;
        let cut = if entry { 15 } else { 21 };
        for length in [start + 1, start + 2, start + 3, end - 1] {
            written.assert_refused_after(side, &journal[..length], passed, cut, index);
        }
        // a foreign letter in the compact form or in the serial
        let mut foreign = journal.clone();
        foreign[start + 4] = b'!';
        written.assert_refused_after(side, &foreign, passed, if entry { 16 } else { 21 }, index);
    }
    // an entry that is counted and missing
    written.assert_refused_after(side, &journal[..written.length(1)], 1, 15, 1);
    written.assert_refused_after(side, &journal[..written.length(5)], 5, 15, 3);
    // no entry is left out
    let mut left_out = journal[..written.length(0)].to_vec();
    left_out.extend(&journal[written.length(1)..]);
    written.assert_refused_after(side, &left_out, 0, 18, 0);
    let mut left_out = journal[..written.length(4)].to_vec();
    left_out.extend(&journal[written.length(5)..]);
    written.assert_refused_after(side, &left_out, 4, 19, 2);
    // and none comes twice
    let mut twice = journal[..written.length(5)].to_vec();
    twice.extend(&journal[written.length(4)..written.length(5)]);
    written.assert_refused_after(side, &twice, 5, 17, 3);
    // a serial that comes back, and bytes after the end
    let back = pair_bytes(b"2a", 0);
    for (bytes, number) in [(&back[..], 30), (&[0], 21), (&[0; 40], 21), (&back[..back.len() - 1], 21)] {
        let more = [&journal[..], bytes].concat();
        written.assert_refused_after(side, &more, written.steps(), number, 4);
    }
    let eight = Written::of(side, &[1, 0, 0, 2, 0, 0, 0, 1]);
    let ninth = [&eight.journal[..], &pair_bytes(b"8", 1)].concat();
    eight.assert_refused_after(side, &ninth, eight.steps(), 31, 4);
}

/// Another key or width than the journal's: the check takes those of its state.
pub fn steps_under_the_state(side: &dyn Calls) {
    let written = Written::of(side, &[2, 1]);
    let mut held = [0xaa; STATE];
    assert_eq!(side.check_head(&written.journal, &[8; 32], 5, &mut held), 0);
    assert_not_checked(side, &held, &written.journal, 1, 20, 0);
    for width in 6..=8 {
        assert_eq!(side.check_head(&written.journal, &[9; 32], width, &mut held), 0);
        assert_not_checked(side, &held, &written.journal, usize::MAX, 16, 0);
        let one = State { width: width as u64, ..state_of(written.after(1)) };
        // a cancellation shows no counter, and a new pair needs none
        let two = State { width: width as u64, ..state_of(written.after(3)) };
        assert_checked(side, &state_bytes(&one), &written.journal, 2, &state_bytes(&two));
    }
}

/// A count in the journal that is less than that of the state gets 6; one that is equal closes the section.
pub fn steps_by_the_count(side: &dyn Calls) {
    let written = Written::of(side, &[1, 3]);
    let place = state_of(written.after(2)).open_place as usize;
    for count in 0..6 {
        let journal = with_count(&written.journal, place, count);
        for from in 2..=5 {
            let held = written.after(from);
            let receipts = from as u32 - 2;
            if count < receipts {
                for steps in [0, 1, usize::MAX] {
                    assert_not_checked(side, held, &journal, steps, 6, 0);
                }
                continue;
            }
            assert_checked(side, held, &journal, 0, held);
            match count {
                // the next entry starts no pair
                0..3 => assert_not_checked(side, held, &journal, usize::MAX, 21, 1 + count),
                3 => assert_checked(side, held, &journal, usize::MAX, written.after(5)),
                _ => assert_not_checked(side, held, &journal, usize::MAX, 15, 4),
            }
        }
    }
    // the count of an earlier pair is not read again
    for count in [0, 2, u32::MAX] {
        let journal = with_count(&written.journal, 20, count);
        assert_checked(side, written.after(2), &journal, usize::MAX, written.after(5));
    }
}

/// Of the bytes before the end of the state's journal, only the four of the count are read.
pub fn steps_read_no_more(side: &dyn Calls) {
    let written = Written::of(side, &[2, 0, 2]);
    for from in 0..=written.steps() {
        let place = state_of(written.after(from)).open_place as usize;
        for byte in [0, 0x5a, 0xff] {
            let mut journal = written.journal.clone();
            journal[..written.length(from)].fill(byte);
            journal[place..place + 4].copy_from_slice(&written.journal[place..place + 4]);
            for steps in 0..4 {
                assert_checked(side, written.after(from), &journal, steps, written.after(from + steps));
            }
        }
    }
}

/// States that are not sound for the journal, or of another length: 6, with index 0 and for every number of steps.
pub fn steps_from_bad_states(side: &dyn Calls) {
    let written = Written::of(side, &[2, 0, 2]);
    let (held, journal) = (state_of(written.after(5)), &written.journal);
    let with_serial = |place: usize, serial: Name| {
        let mut bad = held;
        bad.serials[place] = serial;
        bad
    };
    let mut after_the_end = held.id;
    after_the_end.bytes[3] = 1;
    let bad = [
        State::default(),
        State { csp: *b"at0", ..held },
        State { id: Name::default(), ..held },
        State { id: Name { length: 33, ..held.id }, ..held },
        State { id: Name::of(b"K_1"), ..held },
        State { id: after_the_end, ..held },
        State { width: 4, ..held },
        State { width: 9, ..held },
        State { width: (1 << 32) + 5, ..held },
        State { counter: 1 << 39, ..held },
        State { counter: -(1 << 39) - 1, ..held },
        State { receipts: held.last_number + 1, ..held },
        State { receipts: held.open_receipts - 1, ..held },
        State { open_receipts: held.receipts + 1, ..held },
        State { open_receipts: 3, ..held },
        State { journal_length: 23, open_place: 0, ..held },
        State { journal_length: journal.len() as u64 + 1, ..held },
        State { journal_length: u64::MAX, ..held },
        State { open_place: held.journal_length - 3, ..held },
        State { open_place: u64::MAX, ..held },
        State { open_place: u64::MAX - 3, ..held },
        with_serial(0, Name::default()),
        with_serial(1, Name::default()),
        with_serial(2, Name::of(b"G")),
        with_serial(4, Name::of(b"4")),
        with_serial(7, Name { bytes: [b'0'; 32], length: 0 }),
    ];
    for (place, state) in bad.iter().enumerate() {
        for steps in [0, 1, 2, usize::MAX] {
            let mut bytes = state_bytes(state);
            let answer = side.check_steps(&mut bytes, journal, steps);
            assert_eq!(answer, TakenOver { number: 6, index: 0 }, "bad state {place}, {steps} steps");
            assert_eq!(bytes, state_bytes(state), "bad state {place}");
        }
    }
    let mut longer = written.after(5).to_vec();
    longer.extend([0; STATE]);
    for length in [0, 1, 155, STATE - 1, STATE + 1, 2 * STATE] {
        assert_not_checked(side, &longer[..length], journal, 0, 6, 0);
        assert_not_checked(side, &longer[..length], journal, 1, 6, 0);
    }
    // a journal that is shorter than the state says
    for length in [0, 1, 23, 24, written.length(5) - 1] {
        for steps in [0, 1, usize::MAX] {
            assert_not_checked(side, written.after(5), &journal[..length], steps, 6, 0);
        }
    }
    assert_checked(side, written.after(5), &journal[..written.length(5)], 0, written.after(5));
}

/// The head alone: the state of Open, whatever the head counts and whatever follows it.
pub fn heads_checked(side: &dyn Calls) {
    let (key, fresh) = ([9; 32], state_bytes(&State::opened(&by_hand())));
    let check = |journal: &[u8], key: &[u8], width: usize, room: usize| {
        let mut state = vec![0xaa; room];
        (side.check_head(journal, key, width, &mut state), state)
    };
    let (zeros, unchanged) = (vec![0; STATE], |room| vec![0xaa; room]);
    for count in ["00000000", "00000001", "7fffffff", "ffffffff"] {
        let head = unhex_parts(&[HEAD_BY_HAND, count]);
        for after in [&[][..], &[0], &[0xff; 40], b"00000003"] {
            assert_eq!(check(&[&head[..], after].concat(), &key, 5, STATE), (0, fresh.to_vec()), "{count}");
        }
        for length in 0..head.len() {
            assert_eq!(check(&head[..length], &key, 5, STATE), (14, zeros.clone()), "{length} bytes");
        }
    }
    let head = unhex_parts(&[HEAD_BY_HAND, "00000000"]);
    for width in (0..=10).chain([256 + 5, (1 << 32) + 5, usize::MAX]) {
        let opened = State::opened(&Settings { width: width as u64, ..by_hand() });
        let expected = if (5..=8).contains(&width) { (0, state_bytes(&opened).to_vec()) } else { (4, zeros.clone()) };
        assert_eq!(check(&head, &key, width, STATE), expected, "width {width}");
    }
    for length in [0, 1, 31, 33, 64] {
        assert_eq!(check(&head, &vec![9; length], 5, STATE), (4, zeros.clone()), "a key of {length}");
        // 4 comes before 14, and 6 before 4
        assert_eq!(check(&[], &vec![9; length], 5, STATE), (4, zeros.clone()));
        assert_eq!(check(&[], &vec![9; length], 5, 446), (6, unchanged(446)));
    }
    assert_eq!(check(&head[1..], &key, 9, STATE), (4, zeros.clone()));
    for room in [0, 1, 155, STATE - 1, STATE + 1] {
        assert_eq!(check(&head, &key, 5, room), (6, unchanged(room)));
        assert_eq!(check(&head[1..], &key, 5, room), (6, unchanged(room)));
        assert_eq!(check(&head, &key, 4, room), (6, unchanged(room)));
    }
}

/// A thousand receipts month by month, and one of the last month damaged.
pub fn month_by_month(side: &dyn Calls) {
    let (mut journal, mut held) = (vec![0xaa; 24 + 1000 * (2 + LONGEST_COMPACT)], [0; STATE]);
    assert_eq!(side.open(&settings_bytes(&by_hand()), &mut journal, &mut held), 0);
    let mut after = vec![held];
    for number in 1..=1000 {
        assert_issued(side, &mut held, number, [number as i64 - 1, 0, 0, 0, 0], &mut journal);
        after.push(held);
    }
    journal.truncate(side.journal_length(&held));
    let mut damaged = journal.clone();
    let place = side.journal_length(&after[990]) + 2;
    damaged[place] ^= 1;
    let (mut good, mut bad) = (after[0], after[0]);
    for month in 1..=12 {
        assert_eq!(side.check_steps(&mut good, &journal, 84).number, 0);
        assert_eq!(good, after[1000.min(84 * month)]);
        let answer = side.check_steps(&mut bad, &damaged, 84);
        assert_eq!(answer, if month < 12 { TakenOver::DONE } else { TakenOver { number: 16, index: 990 } });
    }
    assert_eq!(bad, after[84 * 11]);
}
