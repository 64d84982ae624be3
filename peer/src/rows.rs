//! Rows of the test tables that the peer computes: what lies at the limits of request E4 and next to them, both ways to open a
//! register (request E7), changes of the certificate (request E5), and exports of several pairs (request E2). In their tables they come last, after the published
//! rows. The answers are the peer's; the tests ask them of the library, too.

mod change;
mod exports;
mod pairs;

use crate::calls::{Calls, Peer, Written};
use crate::layout::{STATE, settings_bytes, state_bytes};
use crate::model::{CHAIN, COUNTER, Given, Journal, Printed, SIGNED, spelled};
use crate::receipt::{AMOUNT_LIMIT, Date, Details, LONGEST_COMPACT, LONGEST_INPUT, LONGEST_PAYLOAD};
use crate::register::State;
use crate::sample::{ENDS, FIVE_LARGEST, LAST_AMOUNTS, NEW_AMOUNTS, NEXT_AMOUNTS, PAYLOAD_EDGES, width_end};
use crate::settings::{Name, Settings};
use crate::text::hex;

pub use change::change_answer;
pub use exports::{Asked, export_answer};

/// Computes the rows of a table.
pub type Rows = fn() -> Vec<String>;

/// The tables with such rows, by their place as seen from the peer's folder.
pub const TABLES: [(&str, Rows); 9] = [
    ("../tests/takeover-pairs.tsv", pairs::takeover_pairs),
    ("../tests/takeover.tsv", takeover),
    ("tests/data/amount.tsv", amount),
    ("tests/data/change.tsv", change::change),
    ("tests/data/code.tsv", code),
    ("tests/data/export.tsv", exports::exports),
    ("tests/data/issue-limits.tsv", issue_limits),
    ("tests/data/ocr-line.tsv", ocr_line),
    ("tests/data/open.tsv", open),
];

const DATE: Date = Date { year: 2016, month: 2, day: 29, hour: 8, minute: 5, second: 0 };

/// The signature of the receipt at this place, as in the published journals.
fn signature(place: usize) -> Vec<u8> {
    (0..64).map(|i| (37 * place + 11 * i + 5) as u8).collect()
}

fn settings(id: &[u8], serial: &[u8], width: u64) -> Settings {
    let key = std::array::from_fn(|i| i as u8);
    Settings { csp: *b"AT0", id: Name::of(id), serial: Name::of(serial), width, key }
}

fn short_settings(width: u64) -> Settings {
    settings(b"K-1", b"2a", width)
}

fn longest_settings(width: u64) -> Settings {
    settings(&[b'~'; 32], &[b'f'; 32], width)
}

// ---- journals

/// Amounts and kind of a receipt.
type Receipt = ([i64; 5], u32);

/// The start receipt and then these, numbered one by one up to `last`.
fn given(receipts: &[Receipt], last: u32) -> Vec<Given> {
    let first = last - receipts.len() as u32;
    let all = [([0; 5], 0)].into_iter().chain(receipts.iter().copied());
    (first..=last)
        .zip(all)
        .enumerate()
        .map(|(i, (number, (amounts, kind)))| (Details { number, date: DATE, amounts, kind }, signature(i)))
        .collect()
}

/// What the program takeover prints for its standard input.
pub fn takeover_line(side: &dyn Calls, input: &[u8]) -> String {
    if !(33..=65_536).contains(&input.len()) {
        return "refused 25 0".to_owned();
    }
    let mut held = [0; STATE];
    let answer = side.take_over(&input[33..], &input[1..33], input[0] as usize, &mut held);
    match answer.number {
        0 => format!("accepted {} {}", side.receipts(&held), side.counter(&held)),
        number => {
            assert_eq!(held, [0; STATE], "the unopened state");
            format!("refused {number} {}", answer.index)
        }
    }
}

/// The start receipt and these, numbered from 1.
fn journal_row(name: &str, width: u64, receipts: &[Receipt]) -> String {
    takeover_row(name, &short_settings(width), &given(receipts, 1 + receipts.len() as u32))
}

/// The same with the longest ID and serial and the highest numbers.
fn longest_row(name: &str, width: u64, receipts: &[Receipt]) -> String {
    takeover_row(&format!("longest-receipt-width-{width}{name}"), &longest_settings(width), &given(receipts, u32::MAX))
}

fn takeover_row(name: &str, settings: &Settings, receipts: &[Given]) -> String {
    bytes_row(name, settings, &Journal::with(settings, receipts).bytes())
}

fn bytes_row(name: &str, settings: &Settings, journal: &[u8]) -> String {
    let input = [&[settings.width as u8], &settings.key[..], journal].concat();
    [name, &hex(&input), "0", &takeover_line(&Peer, &input)].join("\t")
}

fn takeover() -> Vec<String> {
    let once = NEW_AMOUNTS.into_iter().chain(ENDS).map(|amount| amount_row(amount, 0));
    let everywhere = LAST_AMOUNTS.into_iter().chain(NEXT_AMOUNTS).flat_map(amount_rows);
    let ends = [end_rows("top", 1, width_end(5)), end_rows("bottom", -1, !width_end(5))];
    once.chain(everywhere).chain((5..=8).flat_map(width_rows)).chain(ends.concat()).collect()
}

fn amount_rows(amount: i64) -> impl Iterator<Item = String> {
    (0..5).map(move |place| amount_row(amount, place))
}

/// A second receipt with this amount at one of the five places.
fn amount_row(amount: i64, place: usize) -> String {
    let mut amounts = [0; 5];
    amounts[place] = amount;
    let text = String::from_utf8(spelled(amount)).expect("ASCII").replace(',', "c");
    journal_row(&format!("second-amount-{text}-place-{}", 5 + place), 5, &[(amounts, 0)])
}

/// The longest receipt of a width after others with the largest amounts, and with an amount beyond the limit: the upper
/// one has as many letters as the lower limit, the lower one has one more. Then the largest receipt twice.
fn width_rows(width: u64) -> [String; 5] {
    let [most, least] = [[AMOUNT_LIMIT; 5], [-AMOUNT_LIMIT; 5]];
    let [mut above, mut below] = [least; 2];
    above[4] = AMOUNT_LIMIT + 1;
    below[4] = -AMOUNT_LIMIT - 1;
    [
        longest_row("", width, &[(most, 0), (least, 1), (least, 2), (least, 0)]),
        longest_row("-amount-above", width, &[(above, 0)]),
        longest_row("-amount-below", width, &[(below, 0)]),
        journal_row(&format!("width-{width}-largest-twice"), width, &[(most, 0); 2]),
        journal_row(&format!("width-{width}-largest-negative-twice"), width, &[(least, 0); 2]),
    ]
}

/// Width 5 to one of its ends by the largest receipt and one more; then a cent beyond, in each kind.
fn end_rows(name: &str, sign: i64, last: i64) -> [String; 4] {
    let left = last - sign * FIVE_LARGEST;
    let to_the_end = [([sign * AMOUNT_LIMIT; 5], 0), ([0, 0, left, 0, 0], 0)];
    let row = |end: &str, more: &[Receipt]| {
        journal_row(&format!("width-5-{name}-largest{end}"), 5, &[&to_the_end[..], more].concat())
    };
    let cent = [0, 0, 0, sign, 0];
    [
        row("", &[]),
        row("-one-more", &[(cent, 0)]),
        row("-one-more-cancellation", &[(cent, 1)]),
        row("-one-more-training", &[(cent, 2)]),
    ]
}

// ---- amounts

fn amount() -> Vec<String> {
    let row = |amount: i64| format!("{amount}\t{}", String::from_utf8(spelled(amount)).expect("ASCII"));
    NEW_AMOUNTS.into_iter().chain(LAST_AMOUNTS).map(row).collect()
}

// ---- codes and lines

/// What one of the calls of code.tsv and ocr-line.tsv answers: the number, and the bytes.
pub fn text_answer(side: &dyn Calls, call: &str, input: &[u8]) -> (u32, Vec<u8>) {
    let mut output = [0; LONGEST_COMPACT];
    let written = match call {
        "code" => side.code(input, &mut output),
        "uncode" => side.uncode(input, &mut output),
        "to-line" => side.line(input, &mut output),
        "to-code" => side.unline(input, &mut output),
        "fields" => {
            let part = side.fields(input);
            output[..part.length].copy_from_slice(&input[part.start..part.start + part.length]);
            Written { number: part.number, length: part.length }
        }
        other => panic!("no call {other}"),
    };
    (written.number, output[..written.length].to_vec())
}

fn text_row(name: &str, call: &str, input: &[u8]) -> String {
    let (number, output) = text_answer(&Peer, call, input);
    [name, call, &hex(input), &number.to_string(), &hex(&output)].join("\t")
}

/// A code of twelve fields with so many bytes in counter field and chain field; its ID makes the payload so long.
fn printed(counter: usize, chain: usize, payload: usize) -> Printed {
    let mut parts = vec![Vec::new(); SIGNED + 1];
    parts[0] = b"R1-AT0".to_vec();
    parts[COUNTER] = vec![0xa5; counter];
    parts[CHAIN] = vec![0x5a; chain];
    parts[SIGNED] = signature(0);
    let mut printed = Printed { parts };
    printed.parts[1] = vec![b'x'; payload - printed.payload().len()];
    printed
}

fn code() -> Vec<String> {
    let rows = |length| code_rows(&format!("payload-{length}-with-id"), &printed(8, 8, length));
    PAYLOAD_EDGES.into_iter().flat_map(rows).collect()
}

fn code_rows(name: &str, printed: &Printed) -> [String; 3] {
    let (form, code) = (printed.form(), printed.code());
    [text_row(name, "code", &form), text_row(name, "uncode", &code), text_row(name, "fields", &code)]
}

fn ocr_line() -> Vec<String> {
    let limits =
        PAYLOAD_EDGES.into_iter().flat_map(|length| line_rows(&format!("payload-{length}"), &printed(8, 8, length)));
    let longest = [longest_lines("counter", 126, 6), longest_lines("chain", 6, 126)];
    limits.chain(longest.concat()).chain((5..=8).flat_map(receipt_lines)).collect()
}

/// The longest line, by the bytes of these two fields, and one with a byte too many.
fn longest_lines(name: &str, counter: usize, chain: usize) -> Vec<String> {
    let name = format!("longest-line-by-{name}");
    let rows = [
        line_rows(&name, &printed(counter, chain, LONGEST_PAYLOAD)),
        line_rows(&format!("{name}-one-more"), &printed(counter, chain, LONGEST_PAYLOAD + 1)),
    ];
    rows.concat()
}

/// The longest receipt of a width.
fn receipt_lines(width: u64) -> [String; 2] {
    let receipts = given(&[([-AMOUNT_LIMIT; 5], 0)], u32::MAX);
    let mut journal = Journal::with(&longest_settings(width), &receipts);
    line_rows(&format!("longest-receipt-width-{width}"), &Printed::of(&journal.entry(1).code()))
}

fn line_rows(name: &str, printed: &Printed) -> [String; 2] {
    [text_row(name, "to-line", &printed.code()), text_row(name, "to-code", &printed.line())]
}

// ---- the counter

pub const KINDS: [&str; 3] = ["standard", "cancellation", "training"];

/// Issue from a state of this width and counter: the number, which is also that of Prepare, and the counter after the call.
pub fn issue_answer(side: &dyn Calls, width: u64, before: i64, (amounts, kind): Receipt) -> (u32, i64) {
    let settings = short_settings(width);
    let state = State { counter: before, last_number: 1, receipts: 1, open_receipts: 1, ..State::opened(&settings) };
    let mut bytes = state_bytes(&state);
    let details = Details { number: 2, date: DATE, amounts, kind };
    let prepared = side.prepare(&bytes, &details, &mut [0; LONGEST_INPUT]);
    let mut journal = vec![0; settings.head_length() + 2 + LONGEST_COMPACT];
    let number = side.issue(&mut bytes, &details, &signature(1), &mut journal);
    assert_eq!(number, prepared.number, "{details:?}");
    (number, side.counter(&bytes))
}

fn issue_row(name: &str, width: u64, before: i64, receipt: Receipt) -> String {
    let (number, after) = issue_answer(&Peer, width, before, receipt);
    let amounts = receipt.0.map(|amount| amount.to_string()).join(" ");
    let kind = KINDS[receipt.1 as usize];
    format!("{name}\t{width}\t{kind}\t{before}\t{amounts}\t{number}\t{after}")
}

fn issue_limits() -> Vec<String> {
    let ends = |width| {
        let end = width_end(width);
        [counter_rows("top", width, 1, end), counter_rows("bottom", width, -1, !end)].concat()
    };
    (5..=8).flat_map(ends).collect()
}

/// Receipts of every kind that reach the last counter of a width, or would go beyond it, and amounts beyond their limit.
fn counter_rows(end: &str, width: u64, sign: i64, last: i64) -> Vec<String> {
    let largest = sign * AMOUNT_LIMIT;
    let far = last - sign * FIVE_LARGEST;
    let (all, one) = ([largest; 5], [0, largest, 0, 0, 0]);
    let and_back = [largest, -largest, sign, -sign, 0];
    let beyond = [0, 0, 0, 0, largest + sign];
    let i64_end = if sign > 0 { i64::MAX } else { i64::MIN };
    let mut rows = Vec::new();
    let mut add = |name: &str, before: i64, amounts: [i64; 5], kinds: &[u32]| {
        for &kind in kinds {
            let name = format!("width-{width}-{end}-{name}-{}", KINDS[kind as usize]);
            rows.push(issue_row(&name, width, before, (amounts, kind)));
        }
    };
    add("five-amounts", far, all, &[0, 1, 2]);
    add("five-amounts-one-more", far + sign, all, &[0, 1, 2]);
    add("one-amount", last - largest, one, &[0, 1]);
    add("one-amount-one-more", last - largest + sign, one, &[0, 1]);
    add("there-and-back", last, and_back, &[0, 1]);
    add("amount-beyond", last, beyond, &[0, 1, 2]);
    add("amount-beyond-with-room", far, beyond, &[0, 1, 2]);
    add("end-of-i64", last, [i64_end, 0, 0, 0, 0], &[0, 2]);
    rows
}

// ---- open

/// Open into a buffer of this size, for a shared key or not: the number, and the head, which is empty where it is refused.
/// Nothing else is written, and the state is that of the head or the unopened one.
pub fn open_answer(side: &dyn Calls, settings: &Settings, room: usize, shared: bool) -> (u32, Vec<u8>) {
    let (mut journal, mut state) = (vec![0xaa; room], [0xaa; STATE]);
    let bytes = settings_bytes(settings);
    let number = if shared {
        side.open_shared(&bytes, &mut journal, &mut state)
    } else {
        side.open(&bytes, &mut journal, &mut state)
    };
    let (head, opened) = match number {
        0 => (settings.head_length(), State::opened(settings)),
        _ => (0, State::default()),
    };
    assert_eq!(state, state_bytes(&opened), "{settings:?}");
    assert!(journal[head..].iter().all(|&byte| byte == 0xaa), "{settings:?}");
    journal.truncate(head);
    (number, journal)
}

fn open_row(name: &str, settings: &Settings, room: usize, shared: bool) -> String {
    let (number, head) = open_answer(&Peer, settings, room, shared);
    let name = format!("{name}-{}", if shared { "shared" } else { "alone" });
    let [csp, serial] = [&settings.csp, settings.serial()].map(|text| String::from_utf8_lossy(text));
    let (id, head) = (hex(settings.id()), hex(&head));
    let Settings { width, .. } = settings;
    format!("{name}\t{csp}\t{id}\t{serial}\t{width}\t{room}\t{}\t{number}\t{head}", u8::from(shared))
}

fn open() -> Vec<String> {
    let digits = (b'0'..=b'9').flat_map(|digit| id_rows(&format!("ends-in-{}", digit as char), &[b'K', digit]));
    let others = LAST_BYTES.map(|(name, last)| id_row(&format!("ends-in-{name}"), &[b'K', last], true));
    let ids = IDS.iter().flat_map(|(name, id)| id_rows(name, id));
    digits.chain(others).chain(ids).chain(room_rows()).chain(question_rows()).chain(letter_rows()).collect()
}

/// Last bytes that are no digits: those next to the digits, and others that could be taken for one.
const LAST_BYTES: [(&str, u8); 18] = [
    ("slash", b'/'),
    ("colon", b':'),
    ("hyphen", b'-'),
    ("plus", b'+'),
    ("dot", b'.'),
    ("comma", b','),
    ("lowest-byte", b'!'),
    ("highest-byte", b'~'),
    ("at-sign", b'@'),
    ("caret", b'^'),
    ("backquote", b'`'),
    ("capital-a", b'A'),
    ("capital-o", b'O'),
    ("capital-z", b'Z'),
    ("small-a", b'a'),
    ("small-f", b'f'),
    ("small-l", b'l'),
    ("small-z", b'z'),
];

/// The IDs that the request names, digits at other places than the end, IDs of one byte, of 31 and of 32, and bad ones.
const IDS: [(&str, &[u8]); 22] = [
    ("request-a", b"A"),
    ("request-a1", b"A1"),
    ("digit-first", b"1A"),
    ("digit-before-the-last", b"A1-"),
    ("digits-before-the-last", b"A123456789:"),
    ("two-digits-last", b"A12"),
    ("digit-first-and-last", b"1A2"),
    ("only-digits", b"4294967295"),
    ("one-byte-0", b"0"),
    ("one-byte-9", b"9"),
    ("one-byte-slash", b"/"),
    ("one-byte-colon", b":"),
    ("31-bytes-digit-last", b"~~~~~~~~~~~~~~~~~~~~~~~~~~~~~~1"),
    ("31-bytes-digit-before-the-last", b"~~~~~~~~~~~~~~~~~~~~~~~~~~~~~1~"),
    ("32-bytes-digit-last", b"~~~~~~~~~~~~~~~~~~~~~~~~~~~~~~~1"),
    ("32-bytes-digit-before-the-last", b"~~~~~~~~~~~~~~~~~~~~~~~~~~~~~~1~"),
    ("32-bytes-only-digits", b"01234567890123456789012345678901"),
    ("32-bytes-digits-and-hyphen", b"0123456789012345678901234567890-"),
    ("empty", b""),
    ("blank-before-digit", b"K 1"),
    ("blank-after-digit", b"K1 "),
    ("high-byte-before-digit", b"K\xb91"),
];

fn id_row(name: &str, id: &[u8], shared: bool) -> String {
    let settings = settings(id, b"2a", 5);
    open_row(name, &settings, settings.head_length(), shared)
}

fn id_rows(name: &str, id: &[u8]) -> [String; 2] {
    [false, true].map(|shared| id_row(name, id, shared))
}

/// The longest head of each width into its own size, and into others.
fn room_rows() -> impl Iterator<Item = String> {
    let row = |name: &str, width: u64, room: usize| {
        open_row(&format!("longest-width-{width}{name}"), &longest_settings(width), room, true)
    };
    let head = longest_settings(5).head_length();
    let others = [("-room-one-more", head + 1), ("-room-one-short", head - 1), ("-room-none", 0)];
    (5..=8).map(move |width| row("", width, head)).chain(others.map(|(name, room)| row(name, 5, room)))
}

/// The questions in their order, by what is wrong.
const QUESTIONS: [&str; 6] = ["bad-csp", "bad-id", "digit", "bad-serial", "bad-width", "no-room"];

/// Each question answered by "no", together with each other one, and all of them. With the key alone only where the ID ends
/// in a digit.
fn question_rows() -> Vec<String> {
    let mut rows = Vec::new();
    for (place, first) in QUESTIONS.into_iter().enumerate() {
        rows.extend(wrong_rows(first, &[first]));
        for other in &QUESTIONS[place + 1..] {
            rows.extend(wrong_rows(&format!("{first}-and-{other}"), &[first, other]));
        }
    }
    rows.extend(wrong_rows("all-wrong", &QUESTIONS));
    rows
}

/// The letters at the edges of what a CSP, an ID and a serial may have, and those next to them, each in Open.
fn letter_rows() -> Vec<String> {
    let mut rows = Vec::new();
    let mut row =
        |name: String, settings: Settings| rows.push(open_row(&name, &settings, settings.head_length(), false));
    for (place, letters) in [&b"@AZ[az"[..], b"@AZ[az", b"/09:"].into_iter().enumerate() {
        for &letter in letters {
            let mut settings = settings(b"K-A", b"2a", 5);
            settings.csp[place] = letter;
            row(format!("csp-{place}-{letter}"), settings);
        }
    }
    for letter in [0, 32, 33, 34, b'^', b'_', b'`', 125, 126, 127, 128, 255] {
        row(format!("id-{letter}"), settings(&[b'K', letter, b'A'], b"2a", 5));
    }
    for letter in *b"/09:@AFG`aefg" {
        row(format!("serial-{letter}"), settings(b"K-A", &[b'2', letter, b'a'], 5));
    }
    rows
}

fn wrong_rows(name: &str, wrong: &[&str]) -> Vec<String> {
    let is = |what| wrong.contains(&what);
    let id = [&b"K"[..], if is("bad-id") { b"_" } else { b"-" }, if is("digit") { b"1" } else { b"A" }].concat();
    let serial: &[u8] = if is("bad-serial") { b"2A" } else { b"2a" };
    let mut settings = settings(&id, serial, if is("bad-width") { 9 } else { 5 });
    if is("bad-csp") {
        settings.csp = *b"at0";
    }
    let room = settings.head_length() - usize::from(is("no-room"));
    let ways: &[bool] = if is("digit") { &[false, true] } else { &[true] };
    ways.iter().map(|&shared| open_row(name, &settings, room, shared)).collect()
}
