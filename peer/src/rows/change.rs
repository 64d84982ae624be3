//! Rows for Change (request E5): states as bytes, sound ones and ones made by hand, and what they become.

use super::{hex, longest_settings, settings, short_settings};
use crate::calls::{Calls, Peer};
use crate::layout::{state_bytes, state_of};
use crate::register::{SERIALS, State};
use crate::sample::width_end;
use crate::settings::{Name, Settings};

/// Change of this state into a buffer of this size: the number, the state after it and what was appended to the journal, both
/// empty where it is refused. No other byte is written.
pub fn change_answer(side: &dyn Calls, state: &[u8], serial: &[u8], room: usize) -> (u32, Vec<u8>, Vec<u8>) {
    let (mut after, mut journal) = (state.to_vec(), vec![0xaa; room]);
    let number = side.change(&mut after, serial, &mut journal);
    if number != 0 {
        assert_eq!(after, state, "refused, and the state is changed");
        assert!(journal.iter().all(|&byte| byte == 0xaa), "refused, and the journal is changed");
        return (number, Vec::new(), Vec::new());
    }
    let [start, end] = [state, &after].map(|state| side.journal_length(state));
    let (before, rest) = journal.split_at(start);
    let (appended, rest) = rest.split_at(end - start);
    assert!(before.iter().chain(rest).all(|&byte| byte == 0xaa), "another byte of the journal is changed");
    (0, after, appended.to_vec())
}

/// The serials of these rows.
const NAMES: [&[u8]; 9] = [b"2a", b"2b", b"0", b"f00d", b"00", b"2a0", b"deadbeef", b"9", b"c0ffee"];

/// A register with these serials, three receipts under the newest, and 700 bytes of entries.
fn with_serials(settings: &Settings, later: &[&[u8]]) -> State {
    let mut state = State {
        counter: 1050,
        last_number: 7,
        receipts: 4,
        chain: *b"\x0e\x78\x1f\x86\x98\x21\x2a\xef",
        open_receipts: 3,
        ..State::opened(settings)
    };
    for (slot, serial) in state.serials[1..].iter_mut().zip(later) {
        *slot = Name::of(serial);
        state.journal_length += 8 + serial.len() as u64;
        state.open_place = state.journal_length - 4;
    }
    state.journal_length += 700;
    state
}

/// The same with so many of the serials above.
fn held(used: usize) -> State {
    with_serials(&short_settings(5), &NAMES[1..used])
}

struct Table {
    rows: Vec<String>,
}

impl Table {
    fn add_bytes(&mut self, name: &str, state: &[u8], serial: &[u8], room: usize) {
        let (number, after, appended) = change_answer(&Peer, state, serial, room);
        let [state, serial, after, appended] = [state, serial, &after, &appended].map(hex);
        self.rows.push(format!("{name}\t{state}\t{serial}\t{room}\t{number}\t{after}\t{appended}"));
    }

    /// A buffer of exactly the size that this state needs for the pair.
    fn add(&mut self, name: &str, state: &State, serial: &[u8]) {
        self.add_bytes(name, &state_bytes(state), serial, state.journal_length as usize + 8 + serial.len());
    }

    /// A state that is made of a sound one and refused: the buffer is that of the sound one.
    fn spoiled(&mut self, name: &str, used: usize, spoil: impl Fn(&mut State)) {
        let mut state = held(used);
        let room = state.journal_length as usize + 8 + NAMES[8].len();
        spoil(&mut state);
        self.add_bytes(name, &state_bytes(&state), NAMES[8], room);
    }
}

pub fn change() -> Vec<String> {
    let mut table = Table { rows: Vec::new() };
    accepted(&mut table);
    by_hand(&mut table);
    serials(&mut table);
    rooms(&mut table);
    bad_states(&mut table);
    bad_serials_of_a_state(&mut table);
    bad_places(&mut table);
    questions(&mut table);
    table.rows
}

fn accepted(table: &mut Table) {
    for (used, name) in NAMES.iter().enumerate().take(SERIALS).skip(1) {
        table.add(&format!("serial-{}", used + 1), &held(used), name);
    }
    let opened = State::opened(&short_settings(5));
    table.add("before-the-first-receipt", &opened, b"2b");
    let twice = state_of(&change_answer(&Peer, &state_bytes(&opened), b"2b", 100).1);
    table.add("twice-in-a-row", &twice, b"0");
    for width in 5..=8 {
        let state = State { counter: width_end(width), ..with_serials(&short_settings(width), &[b"2b"]) };
        table.add(&format!("width-{width}-top"), &state, b"0");
        let state = State { counter: !width_end(width), ..with_serials(&longest_settings(width), &[b"2b"]) };
        table.add(&format!("width-{width}-bottom-longest"), &state, b"0");
    }
}

/// Sound states that no list of calls leaves.
fn by_hand(table: &mut Table) {
    let (state, serial) = (held(3), NAMES[8]);
    let length = state.journal_length;
    let head = state.first().head_length() as u64;
    let mut equal = state;
    equal.serials[2] = equal.serials[0];
    for (name, state) in [
        ("count-at-0", State { open_place: 0, ..state }),
        ("count-within-the-head", State { open_place: 9, ..state }),
        ("count-of-the-head", State { open_place: head - 4, ..state }),
        ("count-across-the-head", State { open_place: head - 2, ..state }),
        ("count-at-the-end", State { open_place: length - 4, ..state }),
        ("journal-of-the-head-alone", State { open_place: head - 4, journal_length: head, ..state }),
        ("journal-one-longer-than-the-head", State { open_place: 0, journal_length: head + 1, ..state }),
        ("all-receipts-in-the-section", State { open_receipts: 4, ..state }),
        ("no-receipts-in-the-section", State { open_receipts: 0, ..state }),
        ("no-receipts", State { receipts: 0, open_receipts: 0, ..state }),
        ("most-receipts", State { last_number: u32::MAX, receipts: u32::MAX, open_receipts: u32::MAX, ..state }),
        ("equal-serials", equal),
    ] {
        table.add(&format!("sound-{name}"), &state, serial);
    }
    // the head is that of the first serial: the newest may be longer
    let short = settings(b"K-1", b"2", 5);
    let (head, newest) = (short.head_length() as u64, [b'f'; 32]);
    let state = with_serials(&short, &[&newest]);
    table.add("sound-head-of-the-first", &State { open_place: 0, journal_length: head, ..state }, serial);
}

/// Serials of several lengths and letters, and ones like those used.
fn serials(table: &mut Table) {
    let long = [b'c'; 64];
    for length in [0, 1, 2, 31, 32, 33, 34, 64] {
        table.add(&format!("length-{length}"), &held(1), &long[..length]);
    }
    for letter in *b"09af/:`gAFGZ@_- \0\n\x7f\x80\xb0\xe1\xff" {
        table.add(&format!("letter-{letter}"), &held(1), &[b'3', letter]);
    }
    // one less, one more, a zero more, capitals, zeros that a short one is filled up with
    for (name, serial) in [
        ("like-shorter", &b"2"[..]),
        ("like-longer", b"2a1"),
        ("like-other-first-letter", b"3a"),
        ("like-other-last-letter", b"2c"),
        ("like-capital", b"2A"),
        ("like-zero-after", b"2a\0"),
        ("like-zeros-after", b"2a\0\0\0\0\0\0\0\0\0\0\0\0\0\0\0\0\0\0\0\0\0\0\0\0\0\0\0\0\0\0"),
        ("like-0-before", b"02a"),
    ] {
        table.add(name, &held(1), serial);
        table.add(&format!("{name}-eight"), &held(8), serial);
    }
    for used in [1, 2, SERIALS] {
        for (which, name) in NAMES[..used].iter().enumerate() {
            table.add(&format!("used-{}-of-{used}", which + 1), &held(used), name);
        }
    }
    table.add("ninth", &held(SERIALS), NAMES[8]);
}

fn rooms(table: &mut Table) {
    let state = held(2);
    let length = state.journal_length as usize;
    for serial in [&b"7"[..], b"c0ffee", &[b'e'; 32]] {
        let needed = 8 + serial.len();
        for more in [0, 1, 4, needed - 4, needed - 1, needed, needed + 1, needed + 100] {
            let name = format!("room-{more}-for-{needed}");
            table.add_bytes(&name, &state_bytes(&state), serial, length + more);
        }
        table.add_bytes(&format!("room-short-for-{needed}"), &state_bytes(&state), serial, length - 1);
    }
}

/// States with one thing wrong.
fn bad_states(table: &mut Table) {
    let bad = |name: &str| format!("state-{name}");
    table.spoiled(&bad("csp"), 2, |state| state.csp = *b"at0");
    table.spoiled(&bad("id"), 2, |state| state.id.bytes[1] = b'_');
    table.spoiled(&bad("id-byte-after"), 2, |state| state.id.bytes[31] = b'x');
    table.spoiled(&bad("id-empty"), 2, |state| state.id = Name::default());
    table.spoiled(&bad("id-length-33"), 2, |state| state.id.length = 33);
    for width in [0, 4, 9, 1 << 32 | 5] {
        table.spoiled(&bad(&format!("width-{width}")), 2, |state| state.width = width);
    }
    table.spoiled(&bad("counter-above"), 2, |state| state.counter = width_end(5) + 1);
    table.spoiled(&bad("counter-below"), 2, |state| state.counter = !width_end(5) - 1);
    table.spoiled(&bad("receipts-over-last-number"), 2, |state| state.receipts = state.last_number + 1);
    table.spoiled(&bad("more-in-the-section"), 2, |state| state.open_receipts = state.receipts + 1);
    table.spoiled(&bad("most-in-the-section"), 2, |state| state.open_receipts = u32::MAX);
    table.spoiled(&bad("unopened"), 2, |state| *state = State::default());
    let bytes = state_bytes(&held(2));
    for length in [0, 155, bytes.len() - 1, bytes.len() + 1, 2 * bytes.len()] {
        let mut other = bytes.to_vec();
        other.resize(length, 0);
        table.add_bytes(&bad(&format!("of-{length}-bytes")), &other, NAMES[8], 900);
    }
}

fn bad_serials_of_a_state(table: &mut Table) {
    for used in [1, 3, 7] {
        for (name, place) in [("next", used), ("last", SERIALS - 1)] {
            for byte in [0, 31] {
                let name = format!("serials-{used}-byte-{byte}-in-the-{name}-place");
                table.spoiled(&name, used, |state| state.serials[place].bytes[byte] = b'0');
            }
        }
    }
    for which in [0, 3, SERIALS - 1] {
        let name = |what: &str| format!("serials-{what}-at-{which}");
        if which + 1 < SERIALS {
            table.spoiled(&name("gap"), SERIALS, |state| state.serials[which] = Name::default());
        }
        table.spoiled(&name("length-0"), SERIALS, |state| state.serials[which].length = 0);
        table.spoiled(&name("capital"), SERIALS, |state| state.serials[which].bytes[0] = b'A');
        table.spoiled(&name("byte-after"), SERIALS, |state| state.serials[which].bytes[31] = b'0');
        table.spoiled(&name("shorter"), SERIALS, |state| state.serials[which].length -= 1);
        table.spoiled(&name("length-33"), SERIALS, |state| state.serials[which].length = 33);
        table.spoiled(&name("length-2-to-32"), SERIALS, |state| state.serials[which].length |= 1 << 32);
        table.spoiled(&name("longest-length"), SERIALS, |state| state.serials[which].length = u64::MAX);
    }
    table.spoiled("serials-none", 1, |state| state.serials[0] = Name::default());
    table.spoiled("serials-none-but-the-last", 1, |state| state.serials.swap(0, SERIALS - 1));
    table.spoiled("serials-after-a-gap", 2, |state| state.serials.swap(2, 1));
}

/// Lengths of the journal and places of the count that are too small, too large or beyond 64 bits.
fn bad_places(table: &mut Table) {
    let state = held(2);
    let (head, length) = (state.first().head_length() as u64, state.journal_length);
    for (name, place) in [
        ("one-beyond", length - 3),
        ("at-the-length", length),
        ("2-to-32", 1 << 32),
        ("2-to-63", 1 << 63),
        ("wraps-to-0", u64::MAX - 3),
        ("wraps-to-1", u64::MAX - 2),
        ("wraps-to-3", u64::MAX),
        ("largest-without-wrapping", u64::MAX - 4),
    ] {
        table.spoiled(&format!("count-{name}"), 2, |state| state.open_place = place);
    }
    for (name, length) in [
        ("one-shorter-than-the-head", head - 1),
        ("0", 0),
        ("over-the-buffer", length + 8 + NAMES[8].len() as u64 + 1),
        ("2-to-63", 1 << 63),
        ("longest", u64::MAX),
    ] {
        table.spoiled(&format!("journal-{name}"), 2, |state| {
            state.open_place = 0;
            state.journal_length = length;
        });
    }
    table.spoiled("journal-longest-with-its-count", 2, |state| {
        state.open_place = u64::MAX - 4;
        state.journal_length = u64::MAX;
    });
    // the head is that of the first serial: the newest may not stand for it
    let long = settings(b"K-1", &[b'f'; 32], 5);
    let (state, length) = (with_serials(&long, &[b"2"]), long.head_length() as u64 - 1);
    table.add("head-of-the-first", &State { open_place: 0, journal_length: length, ..state }, NAMES[8]);
}

/// The questions in their order, by what is wrong.
const QUESTIONS: [&str; 5] = ["bad-state", "bad-serial", "used", "ninth", "no-room"];

/// Each question answered by "no", together with each other one, and all of them.
fn questions(table: &mut Table) {
    for (place, first) in QUESTIONS.into_iter().enumerate() {
        wrong(table, first, &[first]);
        for other in &QUESTIONS[place + 1..] {
            wrong(table, &format!("{first}-and-{other}"), &[first, other]);
        }
    }
    wrong(table, "all-but-bad-serial", &["bad-state", "used", "ninth", "no-room"]);
    wrong(table, "all-wrong", &QUESTIONS);
}

fn wrong(table: &mut Table, name: &str, wrong: &[&str]) {
    let is = |what| wrong.contains(&what);
    let mut state = held(if is("ninth") { SERIALS } else { 3 });
    // a used serial can only be bad in a way that it could be taken for
    let serials: &[&[u8]] = match (is("bad-serial"), is("used")) {
        (true, true) => &[b"", b"2A", b"2a\0", b"F00D"],
        (true, false) => &[b"3A", b""],
        (false, true) => &[b"2a", b"2b", b"0"],
        (false, false) => &[b"c0ffee"],
    };
    let length = state.journal_length as usize;
    if is("bad-state") {
        state.open_receipts = state.receipts + 1;
    }
    for (i, serial) in serials.iter().enumerate() {
        let room = length + 8 + serial.len() - usize::from(is("no-room"));
        table.add_bytes(&format!("{name}-{i}"), &state_bytes(&state), serial, room);
    }
}
