//! The vectors, published ones and those of the peer, asked of either side through the interface.

pub mod exports;
pub mod steps;

use peer::calls::{Calls, Listed, TakenOver, Written};
use peer::code::LONGEST_CODE;
use peer::crypto::Aes256;
use peer::layout::{
    DETAILS, SETTINGS, SIGNATURE, STATE, details_bytes, list_bytes, settings_bytes, state_bytes, state_of,
};
use peer::receipt::{Date, Details, LONGEST_COMPACT, LONGEST_INPUT, LONGEST_PAYLOAD, counter_iv};
use peer::register::{SERIALS, State};
use peer::rows::{KINDS, change_answer, issue_answer, open_answer, takeover_line, text_answer};
use peer::settings::{Name, Settings};

/// A file by its place as seen from the peer's folder.
pub fn text_of(file: &str) -> String {
    let path = format!("{}/{file}", env!("CARGO_MANIFEST_DIR"));
    std::fs::read_to_string(&path).unwrap_or_else(|error| panic!("{path}: {error}"))
}

pub fn header() -> String {
    text_of("../include/ditgrux.h")
}

/// A table of tests/data, or ../tests: one header line that begins with "#", columns parted by a tab. The number of rows
/// is asked, so that a table that was cut fails.
pub fn rows(file: &str, count: usize) -> Vec<Vec<String>> {
    let text = text_of(file);
    let mut lines = text.lines();
    let columns = lines.next().expect("a header line").strip_prefix('#').expect("begins with #").split('\t').count();
    let rows: Vec<Vec<String>> = lines.map(|line| line.split('\t').map(str::to_owned).collect()).collect();
    assert!(rows.iter().all(|row| row.len() == columns), "{file}: a row with other columns");
    assert_eq!(rows.len(), count, "{file}: rows");
    rows
}

pub fn unhex(text: &str) -> Vec<u8> {
    assert!(text.len() % 2 == 0);
    (0..text.len() / 2).map(|i| u8::from_str_radix(&text[2 * i..2 * i + 2], 16).expect("hexadecimal")).collect()
}

pub fn amounts_of(text: &str) -> [i64; 5] {
    let amounts: Vec<i64> = text.split(' ').map(|amount| amount.parse().expect("cents")).collect();
    amounts.try_into().expect("five amounts")
}

pub fn kind_of(text: &str) -> u32 {
    KINDS.iter().position(|kind| *kind == text).expect("a kind") as u32
}

pub fn date_of(text: &str) -> Date {
    let part = |range: std::ops::Range<usize>| text[range].parse().expect("digits");
    Date {
        year: part(0..4),
        month: part(5..7),
        day: part(8..10),
        hour: part(11..13),
        minute: part(14..16),
        second: part(17..19),
    }
}

/// The details in a row of receipts.tsv.
fn details_in(row: &[String]) -> Details {
    Details {
        number: row[1].parse().expect("a number"),
        date: date_of(&row[2]),
        amounts: amounts_of(&row[3]),
        kind: kind_of(&row[4]),
    }
}

const GOOD_DATE: Date = Date { year: 2016, month: 2, day: 29, hour: 8, minute: 5, second: 0 };

/// A sound state made by hand.
fn state(id: &str, key: [u8; 32], width: u64, counter: i64, last_number: u32, receipts: u32) -> State {
    let settings = Settings { csp: *b"AT0", id: Name::of(id.as_bytes()), serial: Name::of(b"2a"), width, key };
    State { counter, last_number, receipts, open_receipts: receipts, chain: [7; 8], ..State::opened(&settings) }
}

/// The twelve fields of what Prepare writes.
fn prepared_fields(side: &dyn Calls, state: &State, details: &Details) -> Result<Vec<String>, u32> {
    let mut output = [0; LONGEST_INPUT];
    let written = side.prepare(&state_bytes(state), details, &mut output);
    if written.number != 0 {
        return Err(written.number);
    }
    let payload = output[..written.length].strip_prefix(b"eyJhbGciOiJFUzI1NiJ9.").expect("the header element");
    let mut text = [0; LONGEST_PAYLOAD];
    let read = side.unbase64(1, payload, &mut text);
    assert_eq!(read.number, 0);
    let text = std::str::from_utf8(&text[..read.length]).expect("a payload of ASCII");
    let fields: Vec<String> = text.strip_prefix('_').expect("_").split('_').map(str::to_owned).collect();
    assert_eq!(fields.len(), 12);
    Ok(fields)
}

fn encoded(side: &dyn Calls, url: u32, data: &[u8]) -> Vec<u8> {
    let mut text = vec![0; data.len() * 2 + 4];
    let written = side.base64(url, data, &mut text);
    assert_eq!(written.number, 0);
    text.truncate(written.length);
    text
}

pub fn sha256(side: &dyn Calls) {
    for row in rows("tests/data/sha256.tsv", 212) {
        let data = match row[1].as_str() {
            "hex" => unhex(&row[2]),
            "repeat" => {
                let (byte, times) = row[2].split_once('*').expect("byte and times");
                vec![unhex(byte)[0]; times.parse().expect("a number")]
            }
            other => panic!("{other}"),
        };
        let mut digest = [0; 32];
        assert_eq!(side.sha256(&data, &mut digest), 0);
        assert_eq!(digest.to_vec(), unhex(&row[3]), "{}", row[0]);
    }
}

/// A text that stands for these bytes, asked both ways, or one that the reader refuses.
fn text_row(
    name: &str,
    [text, result, data]: [&str; 3],
    write: impl Fn(&[u8], &mut [u8]) -> Written,
    read: impl Fn(&[u8], &mut [u8]) -> Written,
) {
    let (text, data) = (unhex(text), unhex(data));
    let mut output = vec![0xaa; text.len() + 1];
    let answer = read(&text, &mut output);
    match result {
        "ok" => {
            assert_eq!((answer.number, &output[..answer.length]), (0, &data[..]), "{name}");
            let mut output = vec![0xaa; text.len()];
            assert_eq!(write(&data, &mut output), Written { number: 0, length: text.len() }, "{name}");
            assert_eq!(output, text, "{name}");
        }
        "refused" => assert_eq!(answer, Written { number: 22, length: 0 }, "{name}"),
        other => panic!("{other}"),
    }
    assert!(output[answer.length..].iter().all(|&byte| byte == 0xaa), "{name}: a byte after the end is changed");
}

pub fn base64(side: &dyn Calls) {
    for row in rows("tests/data/base64.tsv", 219) {
        let url = match row[1].as_str() {
            "std" => 0,
            "url" => 1,
            other => panic!("{other}"),
        };
        text_row(
            &row[..2].join(" "),
            [&row[2], &row[4], &row[5]],
            |data, output| side.base64(url, data, output),
            |text, output| side.unbase64(url, text, output),
        );
    }
}

pub fn base32(side: &dyn Calls) {
    for row in rows("tests/data/base32.tsv", 103) {
        text_row(
            &row[0],
            [&row[1], &row[3], &row[4]],
            |data, output| side.base32(data, output),
            |text, output| side.unbase32(text, output),
        );
    }
}

pub fn chain(side: &dyn Calls) {
    let mut ids = 0;
    for row in rows("tests/data/chain.tsv", 24) {
        let (text, value) = (row[1].as_bytes(), unhex(&row[2]));
        let mut digest = [0; 32];
        assert_eq!(side.sha256(text, &mut digest), 0);
        assert_eq!(digest[..8], value, "{}", row[0]);
        assert_eq!(encoded(side, 0, &value), row[3].as_bytes(), "{}", row[0]);
        if row[0].starts_with("id-") {
            ids += 1;
            let mut settings = [0; SETTINGS];
            let (mut journal, mut held) = ([0; 83], [0; STATE]);
            assert_eq!(side.settings(b"AT0", text, b"2a", 5, &[0; 32], &mut settings), 0);
            assert_eq!(side.open(&settings, &mut journal, &mut held), 0);
            assert_eq!(state_of(&held).chain.to_vec(), value, "{}", row[0]);
        }
    }
    assert_eq!(ids, 5);
}

/// The encrypted counter, by a state made by hand whose counter stays as it is.
pub fn counter(side: &dyn Calls) {
    for row in rows("tests/data/counter.tsv", 64) {
        let number: u32 = row[3].parse().expect("a number");
        let key = unhex(&row[1]).try_into().expect("32 bytes");
        let state =
            state(&row[2], key, row[0].parse().expect("a width"), row[4].parse().expect("cents"), number - 1, 0);
        let details = Details { number, date: GOOD_DATE, amounts: [0; 5], kind: 0 };
        let fields = prepared_fields(side, &state, &details).expect("not refused");
        assert_eq!(fields[9], row[9], "{row:?}");
    }
}

/// Which counters fit which width, and their bytes, seen through the encryption.
pub fn counter_bytes(side: &dyn Calls) {
    let mut outside = 0;
    for row in rows("tests/data/counter-bytes.tsv", 102) {
        let width: u64 = row[0].parse().expect("a width");
        let cents: i64 = row[1].parse().expect("cents");
        let state = state("K-1", [9; 32], width, cents, 4, 0);
        let details = Details { number: 5, date: GOOD_DATE, amounts: [0; 5], kind: 0 };
        let answer = prepared_fields(side, &state, &details);
        if row[2] == "no" {
            assert_eq!(answer, Err(6), "{row:?}");
            outside += 1;
            continue;
        }
        let stream = Aes256::new(&[9; 32]).encrypt(&counter_iv(b"K-1", b"5"));
        let mut field = [0; 12];
        let read = side.unbase64(0, answer.expect("not refused")[9].as_bytes(), &mut field);
        assert_eq!((read.number, read.length as u64), (0, width), "{row:?}");
        let plain: Vec<u8> = field[..read.length].iter().zip(stream).map(|(a, b)| a ^ b).collect();
        assert_eq!(plain, unhex(&row[3]), "{row:?}");
    }
    assert_eq!(outside, 6);
}

/// The counter after a receipt.
pub fn counter_sum(side: &dyn Calls) {
    for row in rows("tests/data/counter-sum.tsv", 6) {
        let state = state("K-1", [9; 32], 5, row[2].parse().expect("cents"), 1, 1);
        let details = Details { number: 2, date: GOOD_DATE, amounts: amounts_of(&row[3]), kind: kind_of(&row[1]) };
        let mut bytes = state_bytes(&state);
        let mut journal = [0; 400];
        assert_eq!(side.issue(&mut bytes, &details, &[1; 64], &mut journal), 0, "{row:?}");
        assert_eq!(side.counter(&bytes), row[5].parse::<i64>().expect("cents"), "{row:?}");
        assert_eq!(details.amounts.iter().sum::<i64>(), row[4].parse::<i64>().expect("cents"), "{row:?}");
    }
}

/// States made by hand near both ends of every width.
pub fn issue_limits(side: &dyn Calls) {
    for row in rows("tests/data/issue-limits.tsv", 160) {
        let [before, after] = [&row[3], &row[6]].map(|cents| cents.parse().expect("cents"));
        let receipt = (amounts_of(&row[4]), kind_of(&row[2]));
        let answer = issue_answer(side, row[1].parse().expect("a width"), before, receipt);
        assert_eq!(answer, (row[5].parse().expect("a number"), after), "{}", row[0]);
    }
}

pub fn amount(side: &dyn Calls) {
    for row in rows("tests/data/amount.tsv", 26) {
        let cents: i64 = row[0].parse().expect("cents");
        let state = state("K-1", [9; 32], 5, 0, 1, 1);
        for place in 0..5 {
            let mut details = Details { number: 2, date: GOOD_DATE, amounts: [0; 5], kind: 2 };
            details.amounts[place] = cents;
            let fields = prepared_fields(side, &state, &details).expect("not refused");
            for other in 0..5 {
                assert_eq!(fields[4 + other], if other == place { &row[1] } else { "0,00" }, "{row:?}");
            }
            assert_eq!(fields[9], "VFJB");
        }
    }
}

/// Compact forms and their codes.
pub fn compact(side: &dyn Calls) {
    for row in rows("tests/data/compact.tsv", 19) {
        let mut code = [row[1].as_bytes(), b"_"].concat();
        code.extend(encoded(side, 0, &unhex(&row[2])));
        let mut output = [0; 400];
        let written = side.uncode(&code, &mut output);
        assert_eq!((written.number, &output[..written.length]), (0, row[3].as_bytes()), "{}", row[0]);
        let written = side.code(row[3].as_bytes(), &mut output);
        assert_eq!((written.number, &output[..written.length]), (0, &code[..]), "{}", row[0]);
    }
}

pub fn code(side: &dyn Calls) {
    for row in rows("tests/data/code.tsv", 142) {
        let expected = (row[3].parse().expect("a number"), unhex(&row[4]));
        assert_eq!(text_answer(side, &row[1], &unhex(&row[2])), expected, "{} {}", row[0], row[1]);
    }
}

/// Three journals: written call by call, and taken over.
pub fn journals(side: &dyn Calls) {
    let receipts = rows("tests/data/receipts.tsv", 13);
    let mut seen = 0;
    for row in rows("tests/data/journals.tsv", 3) {
        let (name, key, journal) = (&row[0], unhex(&row[5]), unhex(&row[6]));
        let width: usize = row[4].parse().expect("a width");
        let mut settings = [0; SETTINGS];
        let (mut buffer, mut held) = (vec![0xaa; journal.len()], [0xaa; STATE]);
        let (csp, id, serial) = (row[1].as_bytes(), row[2].as_bytes(), row[3].as_bytes());
        assert_eq!(side.settings(csp, id, serial, width, &key, &mut settings), 0, "{name}");
        assert_eq!(side.open(&settings, &mut buffer, &mut held), 0, "{name}");
        for receipt in receipts.iter().filter(|receipt| receipt[0] == *name) {
            seen += 1;
            let details = details_in(receipt);
            let compact = &receipt[8];
            assert_eq!(state_of(&held).chain.to_vec(), unhex(&receipt[9]), "{name}");
            let mut input = [0; LONGEST_INPUT];
            let written = side.prepare(&held, &details, &mut input);
            let second_dot = compact.rfind('.').expect("two dots");
            assert_eq!(
                (written.number, &input[..written.length]),
                (0, &compact.as_bytes()[..second_dot]),
                "{name} {}",
                receipt[1]
            );
            let before = side.journal_length(&held);
            assert_eq!(side.issue(&mut held, &details, &unhex(&receipt[5]), &mut buffer), 0, "{name} {}", receipt[1]);
            let after = side.journal_length(&held);
            assert_eq!(&buffer[before + 2..after], compact.as_bytes(), "{name} {}", receipt[1]);
            assert_eq!(side.counter(&held), receipt[6].parse::<i64>().expect("cents"), "{name} {}", receipt[1]);
            assert_eq!(state_of(&held).chain.to_vec(), unhex(&receipt[10]), "{name} {}", receipt[1]);
        }
        assert_eq!(buffer, journal, "{name}");
        assert_eq!(side.counter(&held).to_string(), row[8], "{name}");
        assert_eq!(side.last_number(&held).to_string(), row[9], "{name}");
        assert_eq!(side.receipts(&held).to_string(), row[10], "{name}");
        assert_eq!(state_of(&held).chain.to_vec(), unhex(&row[11]), "{name}");
        assert_eq!(side.journal_length(&held).to_string(), row[12], "{name}");
        let mut taken = [0xaa; STATE];
        assert_eq!(side.take_over(&journal, &key, width, &mut taken).number, 0, "{name}");
        assert_eq!(taken, held, "{name}");
    }
    assert_eq!(seen, 13);
}

/// The same journals, where those receipts whose device had failed are issued by lists.
pub fn journals_by_lists(side: &dyn Calls) {
    let receipts = rows("tests/data/receipts.tsv", 13);
    let mut listed = 0;
    for row in rows("tests/data/journals.tsv", 3) {
        let (name, journal) = (&row[0], unhex(&row[6]));
        let mut settings = [0; SETTINGS];
        let (mut buffer, mut held) = (vec![0xaa; journal.len()], [0xaa; STATE]);
        let (csp, id, serial) = (row[1].as_bytes(), row[2].as_bytes(), row[3].as_bytes());
        assert_eq!(side.settings(csp, id, serial, row[4].parse().expect("a width"), &unhex(&row[5]), &mut settings), 0);
        assert_eq!(side.open(&settings, &mut buffer, &mut held), 0, "{name}");
        for receipt in receipts.iter().filter(|receipt| receipt[0] == *name) {
            let details = details_in(receipt);
            if receipt[5].is_empty() {
                listed += 1;
                let answer = side.issue_list(&mut held, &details_bytes(&details), &mut buffer);
                assert_eq!(answer, Listed { number: 0, issued: 1 }, "{name} {}", receipt[1]);
            } else {
                assert_eq!(side.issue(&mut held, &details, &unhex(&receipt[5]), &mut buffer), 0, "{name}");
            }
        }
        assert_eq!(buffer, journal, "{name}");
    }
    assert_eq!(listed, 3);
}

pub fn takeover(side: &dyn Calls) {
    takeover_rows(side, "../tests/takeover.tsv", 325);
}

/// Journals of several pairs.
pub fn takeover_pairs(side: &dyn Calls) {
    takeover_rows(side, "../tests/takeover-pairs.tsv", 303);
}

fn takeover_rows(side: &dyn Calls, table: &str, count: usize) {
    for row in rows(table, count) {
        let mut input = unhex(&row[1]);
        input.resize(input.len() + row[2].parse::<usize>().expect("a number of zeros"), 0);
        assert_eq!(takeover_line(side, &input), row[3], "{}", row[0]);
    }
}

/// The cases and edges that the paper names.
pub fn paper(side: &dyn Calls) {
    let details = |amounts, kind| Details { number: 5, date: GOOD_DATE, amounts, kind };
    let register = |counter, receipts| state("K-1", [9; 32], 5, counter, 4, receipts);
    let issue = |held: &State, details: &Details, signature: &[u8]| {
        let (mut bytes, mut journal) = (state_bytes(held), [0; 400]);
        side.issue(&mut bytes, details, signature, &mut journal)
    };
    let end = 549_755_813_887;
    assert_eq!(issue(&register(end - 1, 1), &details([1, 0, 0, 0, 0], 0), &[1; 64]), 0);
    assert_eq!(issue(&register(end, 1), &details([1, 0, 0, 0, 0], 0), &[1; 64]), 11);
    assert_eq!(issue(&register(end, 1), &details([1, 0, 0, 0, 0], 1), &[1; 64]), 11);
    assert_eq!(issue(&register(end, 1), &details([1, 0, 0, 0, 0], 2), &[1; 64]), 0);
    assert_eq!(issue(&register(-end - 1, 1), &details([-1, 0, 0, 0, 0], 0), &[1; 64]), 11);
    for (amount, number) in [
        (99_999_999_999, 0),
        (-99_999_999_999, 0),
        (100_000_000_000, 9),
        (-100_000_000_000, 9),
        (i64::MAX, 9),
        (i64::MIN, 9),
    ] {
        assert_eq!(issue(&register(0, 1), &details([0, 0, amount, 0, 0], 0), &[1; 64]), number, "{amount}");
        assert_eq!(issue(&register(0, 1), &details([0, 0, amount, 0, 0], 2), &[1; 64]), number, "{amount}");
    }
    assert_eq!(issue(&register(0, 0), &details([1, -1, 0, 0, 0], 0), &[1; 64]), 10);
    assert_eq!(issue(&register(0, 1), &details([0; 5], 0), &[1; 63]), 12);
    assert_eq!(issue(&register(0, 1), &details([0; 5], 0), b"Sicherheitseinrichtung ausgefallen"), 12);
    assert_eq!(issue(&register(0, 1), &details([0; 5], 3), &[1; 64]), 7);
    for (year, day, number) in
        [(2016, 29, 0), (2017, 29, 8), (2000, 29, 0), (2100, 28, 8), (1999, 28, 8), (2016, 30, 8)]
    {
        let mut dated = details([0; 5], 0);
        (dated.date.year, dated.date.day) = (year, day);
        assert_eq!(issue(&register(0, 1), &dated, &[1; 64]), number, "{year}-02-{day}");
    }

    let mut settings = [0; SETTINGS];
    assert_eq!(side.settings(b"AT0", &[b'~'; 33], b"2a", 5, &[0; 32], &mut settings), 2);
    assert_eq!(side.settings(b"AT0", &[b'~'; 32], b"2a", 5, &[0; 32], &mut settings), 0);
    assert_eq!(encoded(side, 0, b"TRA"), b"VFJB");
    assert_eq!(encoded(side, 0, b"STO"), b"U1RP");
    assert_eq!(encoded(side, 1, b"{\"alg\":\"ES256\"}"), b"eyJhbGciOiJFUzI1NiJ9");
    assert_eq!(encoded(side, 0, &unhex("0e781f8698212aef")), b"DngfhpghKu8=");
}

/// The version that the header has.
pub fn version(side: &dyn Calls) {
    let header = header();
    let number = header.lines().find_map(|line| line.strip_prefix("#define DITGRUX_VERSION ")).expect("a version");
    assert_eq!(side.version().to_string(), number);
}

// ---- registers that share a key

/// Both ways to open a register, with the bytes of its settings, good or bad.
pub fn open(side: &dyn Calls) {
    for row in rows("tests/data/open.tsv", 159) {
        let (id, serial, key) = (unhex(&row[2]), row[3].as_bytes(), [9; 32]);
        let (width, room): (usize, usize) = (row[4].parse().expect("a width"), row[5].parse().expect("a size"));
        let settings = Settings {
            csp: row[1].as_bytes().try_into().expect("a CSP"),
            id: Name::of(&id),
            serial: Name::of(serial),
            width: width as u64,
            key,
        };
        let shared = ["0", "1"].iter().position(|shared| *shared == row[6]).expect("0 or 1") == 1;
        let expected = (row[7].parse().expect("a number"), unhex(&row[8]));
        assert_eq!(open_answer(side, &settings, room, shared), expected, "{}", row[0]);
        let mut bytes = [0; SETTINGS];
        match (side.settings(&settings.csp, &id, serial, width, &key, &mut bytes), expected.0) {
            (0, 0 | 5 | 32) => assert_eq!(bytes, settings_bytes(&settings), "{}", row[0]),
            // 32 is asked before these two, and by Open alone
            (3 | 4, 32) => (),
            (number, opened) => assert_eq!(number, opened, "{}", row[0]),
        }
    }
}

/// A receipt over so many cents, of a register that has issued its start receipt: the counter field. The journal is taken
/// over, whatever its ID ends in.
fn counter_field(side: &dyn Calls, settings: &Settings, number: u32, cents: i64) -> String {
    let (mut journal, mut held) = ([0; 900], [0; STATE]);
    assert_eq!(side.open(&settings_bytes(settings), &mut journal, &mut held), 0);
    let start = Details { number: 1, date: GOOD_DATE, amounts: [0; 5], kind: 0 };
    assert_eq!(side.issue(&mut held, &start, &[1; 64], &mut journal), 0);
    let sale = Details { number, amounts: [cents, 0, 0, 0, 0], ..start };
    let fields = prepared_fields(side, &state_of(&held), &sale).expect("not refused");
    assert_eq!(side.issue(&mut held, &sale, &[2; 64], &mut journal), 0);
    let (journal, mut taken) = (&journal[..side.journal_length(&held)], [0; STATE]);
    assert_eq!(side.take_over(journal, &settings.key, settings.width as usize, &mut taken).number, 0);
    assert_eq!(taken, held);
    fields[9].clone()
}

/// "A1" at 2 and "A" at 12 under one key: one hash input, one IV, and counter fields that differ as the counters do. For a
/// shared key "A1" is not opened.
pub fn one_key_for_two_registers(side: &dyn Calls) {
    let table = rows("tests/data/counter-iv.tsv", 3);
    let key = std::array::from_fn(|i| i as u8);
    let register =
        |id: &str| Settings { csp: *b"AT0", id: Name::of(id.as_bytes()), serial: Name::of(b"2a"), width: 5, key };
    let mut seen = Vec::new();
    for ((row, (id, number)), (cents, field)) in
        table.iter().zip([("A1", 2), ("A", 12)]).zip([(1050, "SY2y0vM="), (-5, "tnJNKRI=")])
    {
        assert_eq!((row[1].as_str(), row[2].clone()), (id, number.to_string()));
        assert_eq!(row[3], "91bec90d2f59a91f2e7c08d17b5334af");
        assert_eq!(counter_field(side, &register(id), number, cents), field, "{id} {number}");
        let mut hidden = [0; 8];
        assert_eq!(side.unbase64(0, field.as_bytes(), &mut hidden), Written { number: 0, length: 5 });
        seen.push((u64::from_be_bytes(hidden) >> 24, cents as u64 & 0xff_ffff_ffff));
    }
    assert_eq!(seen[0].0 ^ seen[1].0, seen[0].1 ^ seen[1].1);

    let mut journal = [0xaa; 30];
    let mut state = [0xaa; STATE];
    assert_eq!(side.open_shared(&settings_bytes(&register("A1")), &mut journal, &mut state), 32);
    assert_eq!((journal, state), ([0xaa; 30], [0; STATE]));
    assert_eq!(side.open_shared(&settings_bytes(&register("A")), &mut journal, &mut state), 0);
    let (mut alone, mut held) = ([0xaa; 30], [0xaa; STATE]);
    assert_eq!(side.open(&settings_bytes(&register("A")), &mut alone, &mut held), 0);
    assert_eq!((journal, state), (alone, held));
}

// ---- changing the certificate

/// States and serials, good or bad, and what Change makes of them.
pub fn change(side: &dyn Calls) {
    for row in rows("tests/data/change.tsv", 226) {
        let expected = (row[4].parse().expect("a number"), unhex(&row[5]), unhex(&row[6]));
        let answer = change_answer(side, &unhex(&row[1]), &unhex(&row[2]), row[3].parse().expect("a size"));
        assert_eq!(answer, expected, "{}", row[0]);
    }
}

fn assert_issued(side: &dyn Calls, held: &mut [u8], number: u32, amounts: [i64; 5], journal: &mut [u8]) {
    let details = Details { number, date: GOOD_DATE, amounts, kind: 0 };
    assert_eq!(side.issue(held, &details, &[number as u8; 64], journal), 0, "{number}");
}

/// The head of K-1 with serial 2a and a count of receipts, and what a change to 2b and one to c0ffee append.
const HEAD_BY_HAND: &str = "00000003 415430 00000003 4b2d31 00000002 3261";
const SECOND_BY_HAND: &str = "00000002 3262";
const THIRD_BY_HAND: &str = "00000006 633066666565";

fn unhex_parts(parts: &[&str]) -> Vec<u8> {
    unhex(&parts.concat().replace(' ', ""))
}

/// Three serials and three receipts, none under the second serial: every byte but those of the entries is spelled here.
pub fn changes_by_hand(side: &dyn Calls) {
    let (mut journal, mut held) = (vec![0xaa; 900], [0xaa; STATE]);
    assert_eq!(side.open(&settings_bytes(&by_hand()), &mut journal, &mut held), 0);
    assert_issued(side, &mut held, 1, [0; 5], &mut journal);
    let first = side.journal_length(&held);
    assert_eq!(side.change(&mut held, b"2b", &mut journal), 0);
    assert_eq!(side.change(&mut held, b"c0ffee", &mut journal), 0);
    let third = side.journal_length(&held);
    assert_eq!(third, first + 10 + 14);
    assert_eq!(journal[..24], unhex_parts(&[HEAD_BY_HAND, "00000001"]));
    assert_eq!(journal[first..third], unhex_parts(&[SECOND_BY_HAND, "00000000", THIRD_BY_HAND, "00000000"]));
    assert!(journal[third..].iter().all(|&byte| byte == 0xaa));

    let sale = Details { number: 7, date: GOOD_DATE, amounts: [1050, 0, 0, 0, 0], kind: 0 };
    let fields = prepared_fields(side, &state_of(&held), &sale).expect("not refused");
    assert_eq!((fields[2].as_str(), fields[10].as_str()), ("7", "c0ffee"));
    assert_issued(side, &mut held, 7, [1050, 0, 0, 0, 0], &mut journal);
    assert_issued(side, &mut held, 8, [-50, 0, 0, 0, 0], &mut journal);
    assert_eq!(journal[..24], unhex_parts(&[HEAD_BY_HAND, "00000001"]));
    assert_eq!(journal[first..third], unhex_parts(&[SECOND_BY_HAND, "00000000", THIRD_BY_HAND, "00000002"]));

    assert_eq!((side.receipts(&held), side.counter(&held), side.last_number(&held)), (3, 1000, 8));
    assert_eq!(held[435..439], [0, 0, 0, 2]);
    assert_eq!(held[439..447], (third as u64 - 4).to_be_bytes());
    assert_serials(side, &held, &[b"2a", b"2b", b"c0ffee"]);
    let (journal, mut taken) = (&journal[..side.journal_length(&held)], [0xaa; STATE]);
    assert_eq!(side.take_over(journal, &by_hand().key, 5, &mut taken), TakenOver::DONE);
    assert_eq!(taken, held);
}

/// A state says these serials, and settings with each of them.
fn assert_serials(side: &dyn Calls, held: &[u8], serials: &[&[u8]]) {
    assert_eq!(side.serials(held) as usize, serials.len());
    let settings = state_of(held).first();
    for which in 0..SERIALS + 2 {
        let (serial, mut bytes) = (serials.get(which).copied().unwrap_or_default(), [0xaa; SETTINGS]);
        let call = |held: &[u8], output: &mut [u8]| side.serial(held, which as u32, output);
        assert_writes_up_to(&call, held, serial, "a serial");
        assert_eq!(side.settings_in(held, which as u32, &mut bytes), 0);
        assert_eq!(bytes, settings_bytes(&Settings { serial: Name::of(serial), ..settings }), "{which}");
    }
}

/// The eight places of a state in every way: what it says of them, whatever they hold, and of other lengths.
pub fn serials_of_a_state(side: &dyn Calls) {
    let state = state("K-1", [9; 32], 5, 0, 1, 1);
    let with = |serials: &[&[u8]]| {
        let slot = |which: usize| serials.get(which).map_or(Name::default(), |serial| Name::of(serial));
        state_bytes(&State { serials: std::array::from_fn(slot), ..state })
    };
    let longest = [b'f'; 32];
    let names: [&[u8]; SERIALS] = [b"2a", b"0", &longest, b"2b", b"00", b"1", b"f", b"9"];
    for used in 0..=SERIALS {
        assert_serials(side, &with(&names[..used]), &names[..used]);
    }
    // up to the first that is empty
    assert_serials(side, &with(&[b"2a", b"", b"0"]), &[b"2a"]);
    assert_serials(side, &with(&[b"", b"2a"]), &[]);
    // a place of length 0 is empty, whatever its bytes are; they are not checked
    let mut held = with(&[b"2a", b"G_", b"0"]);
    assert_serials(side, &held, &[b"2a", b"G_", b"0"]);
    held[43 + 40 + 39] = 0;
    assert_serials(side, &held, &[b"2a"]);
    for length in [0, 155, 446, 448] {
        let other = vec![0x33; length];
        assert_eq!(side.serials(&other), 0);
        assert_eq!(side.serial(&other, 0, &mut [0xaa; 32]), Written { number: 0, length: 0 });
        let mut settings = [0xaa; SETTINGS];
        assert_eq!((side.settings_in(&other, 0, &mut settings), settings), (0, [0; SETTINGS]));
    }
    for length in [0, 122, 124, 447] {
        let mut settings = vec![0xaa; length];
        assert_eq!(side.settings_in(&held, 0, &mut settings), 23);
        assert!(settings.iter().all(|&byte| byte == 0xaa));
    }
}

/// Issue writes the count of the open section where the state says, wherever that is before the journal's end; it asks no
/// more of the place, and Change writes nothing there.
pub fn counts_at_any_place(side: &dyn Calls) {
    let details = Details { number: 2, date: GOOD_DATE, amounts: [0; 5], kind: 0 };
    let held = State { journal_length: 60, open_receipts: 255, last_number: 300, receipts: 299, ..state_by_hand() };
    let details = Details { number: 301, ..details };
    for place in [0, 1, 10, 20, 24, 40, 55, 56] {
        let (mut bytes, mut journal) = (state_bytes(&State { open_place: place, ..held }), [0xaa; 500]);
        assert_eq!(side.issue(&mut bytes, &details, &[], &mut journal), 0, "{place}");
        let mut expected = [0xaa; 60];
        expected[place as usize..place as usize + 4].copy_from_slice(&[0, 0, 1, 0]);
        assert_eq!(journal[..60], expected, "{place}");
        assert_eq!((state_of(&bytes).open_place, state_of(&bytes).open_receipts), (place, 256));
    }
    for place in [57, 60, 1 << 32, 1 << 63, u64::MAX - 4, u64::MAX - 3, u64::MAX - 2, u64::MAX] {
        let (mut bytes, mut journal) = (state_bytes(&State { open_place: place, ..held }), [0xaa; 500]);
        assert_eq!(side.prepare(&bytes, &details, &mut [0; LONGEST_INPUT]), Written { number: 6, length: 0 });
        assert_eq!(side.issue(&mut bytes, &details, &[], &mut journal), 6, "{place}");
        assert_eq!(side.change(&mut bytes, b"2b", &mut journal), 6, "{place}");
        assert_eq!(journal, [0xaa; 500]);
    }
    // Prepare asks nothing of the buffer: the longest journal has room for a count up to its end
    for (place, number) in [(u64::MAX - 5, 0), (u64::MAX - 4, 0), (u64::MAX - 3, 6), (u64::MAX, 6)] {
        let bytes = state_bytes(&State { open_place: place, journal_length: u64::MAX, ..held });
        assert_eq!(side.prepare(&bytes, &details, &mut [0; LONGEST_INPUT]).number, number, "{place}");
    }
}

fn state_by_hand() -> State {
    State::opened(&by_hand())
}

// ---- lists of receipts with a failed device

/// The answer to a list, which leaves what the single calls of its issued receipts leave, each with an empty signature.
fn assert_listed(side: &dyn Calls, held: &[u8], list: &[Details], journal: &[u8], number: u32, issued: usize) {
    let (mut after, mut written) = (held.to_vec(), journal.to_vec());
    let listed = side.issue_list(&mut after, &list_bytes(list), &mut written);
    assert_eq!(listed, Listed { number, issued }, "{list:?}");
    let (mut single, mut buffer) = (held.to_vec(), journal.to_vec());
    for details in &list[..issued] {
        assert_eq!(side.issue(&mut single, details, &[], &mut buffer), 0, "{list:?}");
    }
    assert!(after == single && written == buffer, "{list:?}");
}

/// A list is not issued at all, and nothing is changed.
fn assert_not_listed(side: &dyn Calls, held: &[u8], list: &[u8], room: usize, number: u32) {
    let (mut after, mut journal) = (held.to_vec(), vec![0xaa; room]);
    assert_eq!(side.issue_list(&mut after, list, &mut journal), Listed { number, issued: 0 }, "{} bytes", list.len());
    assert_eq!(after, held);
    assert!(journal.iter().all(|&byte| byte == 0xaa));
}

fn receipt(number: u32, cents: i64, kind: u32) -> Details {
    Details { number, date: GOOD_DATE, amounts: [cents, 0, 0, 0, 0], kind }
}

/// Two lists, the first with the start receipt and the second after a change: every byte but those of the entries is spelled
/// here, and each entry is read back.
pub fn lists_by_hand(side: &dyn Calls) {
    let (mut journal, mut held) = (vec![0xaa; 2000], [0xaa; STATE]);
    assert_eq!(side.open(&settings_bytes(&by_hand()), &mut journal, &mut held), 0);
    let first = [receipt(1, 0, 0), receipt(7, 1050, 0), receipt(8, -50, 1), receipt(9, 500, 2)];
    let second = [receipt(10, 5, 0), receipt(u32::MAX, -1005, 1)];
    assert_eq!(side.issue_list(&mut held, &list_bytes(&first), &mut journal), Listed { number: 0, issued: 4 });
    assert_eq!((side.receipts(&held), side.counter(&held), side.last_number(&held)), (4, 1000, 9));
    let length = side.journal_length(&held);
    assert_eq!(side.change(&mut held, b"2b", &mut journal), 0);
    assert_eq!(side.issue_list(&mut held, &list_bytes(&second), &mut journal), Listed { number: 0, issued: 2 });
    assert_eq!((side.receipts(&held), side.counter(&held), side.last_number(&held)), (6, 0, u32::MAX));
    assert_eq!(held[435..439], [0, 0, 0, 2]);
    assert_eq!(held[439..447], (length as u64 + 6).to_be_bytes());

    assert_eq!(journal[..24], unhex_parts(&[HEAD_BY_HAND, "00000004"]));
    assert_eq!(journal[length..length + 10], unhex_parts(&[SECOND_BY_HAND, "00000002"]));
    let next = assert_entries(side, &by_hand(), &first, &journal[24..]);
    assert_eq!(24 + next, length);
    let settings = Settings { serial: Name::of(b"2b"), ..by_hand() };
    let next = assert_entries(side, &settings, &second, &journal[length + 10..]);
    assert_eq!(length + 10 + next, side.journal_length(&held));
    let (journal, mut taken) = (&journal[..side.journal_length(&held)], [0xaa; STATE]);
    assert_eq!(side.take_over(journal, &by_hand().key, 5, &mut taken), TakenOver::DONE);
    assert_eq!(taken, held);
}

/// The bytes start with the entries of these receipts, whose device had failed; how many bytes these are.
fn assert_entries(side: &dyn Calls, settings: &Settings, list: &[Details], bytes: &[u8]) -> usize {
    let mut at = 0;
    for details in list {
        let length = u16::from_be_bytes([bytes[at], bytes[at + 1]]) as usize;
        let form = &bytes[at + 2..at + 2 + length];
        assert_read(side, settings, form, details, &[]);
        assert!(form.ends_with(b".U2ljaGVyaGVpdHNlaW5yaWNodHVuZyBhdXNnZWZhbGxlbg"));
        at += 2 + length;
    }
    at
}

/// A refused receipt first, in the middle and last, and two of them: the first decides.
pub fn lists_refused(side: &dyn Calls) {
    // a cent more than 100 is beyond the end
    let held = state_bytes(&state("K-1", [9; 32], 5, 549_755_813_787, 4, 1));
    let journal = [0xaa; 1500];
    let date = |year, day, hour| Date { year, day, hour, ..GOOD_DATE };
    let (a, b, good) = (receipt(5, 1, 0), receipt(6, -1, 1), receipt(7, 2, 0));
    let wrong = [
        (Details { number: 0, ..good }, 7),
        (Details { number: 4, ..good }, 7),
        (Details { kind: 3, ..good }, 7),
        (Details { kind: 256, ..good }, 7),
        (Details { kind: u32::MAX, ..good }, 7),
        (Details { date: date(2017, 29, 8), ..good }, 8),
        (Details { date: date(2100, 28, 8), ..good }, 8),
        (Details { date: date(2016, 29, 24), ..good }, 8),
        (receipt(7, 100_000_000_000, 0), 9),
        (receipt(7, i64::MIN, 2), 9),
        (receipt(7, 102, 0), 11),
        (receipt(7, 102, 1), 11),
    ];
    for (refused, number) in wrong {
        assert_listed(side, &held, &[refused], &journal, number, 0);
        assert_listed(side, &held, &[refused, a, b], &journal, number, 0);
        assert_listed(side, &held, &[a, refused, b], &journal, number, 1);
        assert_listed(side, &held, &[a, b, refused], &journal, number, 2);
        for (other, _) in wrong {
            assert_listed(side, &held, &[a, refused, other, b], &journal, number, 1);
        }
    }
    // the counter and the last number of the receipt before count, and training adds nothing
    assert_listed(side, &held, &[a, receipt(6, 99, 0), receipt(7, 1, 2), receipt(8, 1, 0)], &journal, 11, 3);
    assert_listed(side, &held, &[a, receipt(6, 100, 0)], &journal, 11, 1);
    assert_listed(side, &held, &[a, a], &journal, 7, 1);
    assert_listed(side, &held, &[b, a], &journal, 7, 1);
    assert_listed(side, &held, &[a, receipt(u32::MAX, 1, 0), good], &journal, 7, 2);
    assert_listed(side, &held, &[a, b, good], &journal, 0, 3);
}

/// The first receipt of a register is a start receipt, and the one after it is not asked.
pub fn lists_with_the_start(side: &dyn Calls) {
    let (held, journal) = (state_bytes(&state_by_hand()), [0xaa; 1500]);
    let start = receipt(1, 0, 0);
    for first in [receipt(1, 0, 1), receipt(1, 0, 2), receipt(1, 1, 0)] {
        assert_listed(side, &held, &[first, receipt(2, 0, 0)], &journal, 10, 0);
        assert_listed(side, &held, &[start, Details { number: 2, ..first }], &journal, 0, 2);
    }
    assert_listed(side, &held, &[Details { number: 0, ..receipt(1, 1, 2) }], &journal, 7, 0);
    assert_listed(side, &held, &[receipt(1, 100_000_000_000, 2)], &journal, 9, 0);
}

/// A buffer that has room for exactly so many receipts, or a byte less.
pub fn lists_into_room(side: &dyn Calls) {
    let held = state_bytes(&state("K-1", [9; 32], 5, 0, 4, 1));
    let list: Vec<Details> = (5..10).map(|number| receipt(number, 1050, number % 3)).collect();
    let (mut after, mut journal) = (held, vec![0xaa; 2000]);
    for (place, details) in list.iter().enumerate() {
        let start = side.journal_length(&after);
        assert_listed(side, &held, &list, &vec![0xaa; start], 13, place);
        assert_eq!(side.issue(&mut after, details, &[], &mut journal), 0);
        assert_listed(side, &held, &list, &vec![0xaa; side.journal_length(&after) - 1], 13, place);
        if place > 0 {
            // after one that does not fit comes one that would
            let long = Details { amounts: [-99_999_999_999; 5], ..*details };
            let short = Details { number: details.number + 1, ..*details };
            let mut longer = list[..place].to_vec();
            longer.extend([long, short]);
            assert_listed(side, &held, &longer, &vec![0xaa; side.journal_length(&after) + 2], 13, place);
        }
    }
    assert_listed(side, &held, &list, &vec![0xaa; side.journal_length(&after)], 0, 5);
    assert_not_listed(side, &held, &list_bytes(&list), 23, 6);
}

/// No receipts are never refused; bytes that are no whole number of receipts are one without a number.
pub fn lists_cut_or_empty(side: &dyn Calls) {
    let sound = state("K-1", [9; 32], 5, 0, 4, 1);
    let bad = state_bytes(&State { receipts: 5, ..sound });
    let sound = state_bytes(&sound);
    let list = list_bytes(&[receipt(5, 1, 0), receipt(6, 1, 0), receipt(7, 1, 0)]);
    for held in [&sound[..], &bad, &[0; STATE], &[0xff; STATE], &sound[..446], &[0x33; 448], &[0; 155], &[]] {
        for room in [2000, 23, 0] {
            assert_not_listed(side, held, &[], room, 0);
        }
    }
    for length in [1, 71, 73, 143, 145, 215] {
        assert_not_listed(side, &sound, &list[..length], 2000, 7);
        assert_not_listed(side, &sound, &list[..length], 24, 7);
        assert_not_listed(side, &sound, &list[..length], 23, 6);
        for held in [&bad[..], &[0; STATE], &sound[..446], &[]] {
            assert_not_listed(side, held, &list[..length], 2000, 6);
        }
    }
    for held in [&bad[..], &[0; STATE], &sound[..446], &[]] {
        assert_not_listed(side, held, &list, 2000, 6);
        assert_not_listed(side, held, &[0; DETAILS], 2000, 6);
    }
}

/// A thousand receipts, which are more than 65,535 bytes, by one call.
pub fn long_list(side: &dyn Calls) {
    let settings = settings_bytes(&by_hand());
    let mut list = vec![receipt(1, 0, 0)];
    list.extend((2..=1000).map(|number| receipt(number, number as i64, number % 3)));
    let (mut journal, mut held) = (vec![0xaa; 24 + 1000 * (2 + LONGEST_COMPACT)], [0; STATE]);
    assert_eq!(side.open(&settings, &mut journal, &mut held), 0);
    assert_listed(side, &held, &list, &journal, 0, 1000);
    list[930].date.month = 13;
    assert_listed(side, &held, &list, &journal, 8, 930);
}

// ---- receipts read back

/// The register of the receipts that are spelled here by hand.
fn by_hand() -> Settings {
    Settings { csp: *b"AT0", id: Name::of(b"K-1"), serial: Name::of(b"2a"), width: 5, key: [9; 32] }
}

/// A cancellation, and its details as bytes: number, year, month, day, hour, minute, second, kind, and the five amounts.
const CANCELLATION: &str =
    "_R1-AT0_K-1_12_2016-02-29T08:05:00_-10,50_0,00_-0,05_999999999,99_-999999999,99_U1RP_2a_AAAAAAAAAAA=";
const CANCELLATION_BYTES: &str = concat!(
    "0000000c 000007e0 00000002 0000001d 00000008 00000005 00000000 00000001 ",
    "fffffffffffffbe6 0000000000000000 fffffffffffffffb 000000174876e7ff ffffffe8b7891801",
);

/// A sale with a counter field of five bytes.
const SALE: &str = "_R1-AT0_K-1_7_2016-02-29T08:05:00_10,50_0,00_0,00_0,78_-0,05_AAAAAAA=_2a_AAAAAAAAAAA=";

/// The details of the cancellation, by name and as the 72 bytes of the header.
pub fn cancellation() -> (Details, Vec<u8>) {
    let amounts = [-1050, 0, -5, 99_999_999_999, -99_999_999_999];
    (Details { number: 12, date: GOOD_DATE, amounts, kind: 1 }, unhex(&CANCELLATION_BYTES.replace(' ', "")))
}

fn form(side: &dyn Calls, payload: &str, signature: &[u8]) -> Vec<u8> {
    [&b"eyJhbGciOiJFUzI1NiJ9"[..], &encoded(side, 1, payload.as_bytes()), &encoded(side, 1, signature)].join(&b'.')
}

/// The answer of Read, and both outputs, which are full of aa before.
fn read_into(
    side: &dyn Calls,
    settings: &[u8],
    form: &[u8],
    [details, signature]: [usize; 2],
) -> (Written, Vec<u8>, Vec<u8>) {
    let (mut details, mut signature) = (vec![0xaa; details], vec![0xaa; signature]);
    let written = side.read(settings, form, &mut details, &mut signature);
    (written, details, signature)
}

/// Read gives these details and this signature, which is empty where the device had failed.
fn assert_read(side: &dyn Calls, settings: &Settings, form: &[u8], details: &Details, signature: &[u8]) {
    let (written, bytes, given) = read_into(side, &settings_bytes(settings), form, [DETAILS, SIGNATURE]);
    let mut expected = [0xaa; SIGNATURE];
    expected[..signature.len()].copy_from_slice(signature);
    let form = String::from_utf8_lossy(form);
    assert_eq!(written, Written { number: 0, length: signature.len() }, "{form}");
    assert_eq!(bytes, details_bytes(details), "{form}");
    assert_eq!(given, expected, "{form}");
}

/// Read is refused with this number and changes neither output.
fn assert_not_read(side: &dyn Calls, settings: &[u8], form: &[u8], lengths: [usize; 2], number: u32) {
    let (written, details, signature) = read_into(side, settings, form, lengths);
    let form = String::from_utf8_lossy(form);
    assert_eq!(written, Written { number, length: 0 }, "{form} {lengths:?}");
    assert!(details.iter().chain(&signature).all(|&byte| byte == 0xaa), "{form} {lengths:?}: an output is changed");
}

/// Receipts spelled by hand: negative amounts, a failed device, each kind.
pub fn read_by_hand(side: &dyn Calls) {
    let signature: [u8; SIGNATURE] = std::array::from_fn(|i| 0xc0 ^ i as u8);
    let (details, bytes) = cancellation();
    let signed = form(side, CANCELLATION, &signature);
    assert_read(side, &by_hand(), &signed, &details, &signature);
    assert_eq!(read_into(side, &settings_bytes(&by_hand()), &signed, [DETAILS, SIGNATURE]).1, bytes);
    let failed = form(side, CANCELLATION, b"Sicherheitseinrichtung ausgefallen");
    assert_read(side, &by_hand(), &failed, &details, &[]);

    let sale = Details { number: 7, date: GOOD_DATE, amounts: [1050, 0, 0, 78, -5], kind: 0 };
    for (field, kind) in [("AAAAAAA=", 0), ("/////8A=", 0), ("U1RP", 1), ("VFJB", 2)] {
        let spelled = SALE.replacen("AAAAAAA=", field, 1);
        assert_read(side, &by_hand(), &form(side, &spelled, &signature), &Details { kind, ..sale }, &signature);
    }
    // the number may be as large as it can, and key and chain value are not asked
    let last = SALE.replace("_7_", "_4294967295_").replace("2a_AAAAAAAAAAA=", "2a_DngfhpghKu8=");
    let other = Settings { key: [0; 32], ..by_hand() };
    assert_read(side, &other, &form(side, &last, &[0; 64]), &Details { number: u32::MAX, ..sale }, &[0; 64]);
}

/// Each receipt of the three journals.
pub fn receipts_read(side: &dyn Calls) {
    let journals = rows("tests/data/journals.tsv", 3);
    for row in rows("tests/data/receipts.tsv", 13) {
        let journal = journals.iter().find(|journal| journal[0] == row[0]).expect("a journal");
        let settings = Settings {
            csp: journal[1].as_bytes().try_into().expect("a CSP"),
            id: Name::of(journal[2].as_bytes()),
            serial: Name::of(journal[3].as_bytes()),
            width: journal[4].parse().expect("a width"),
            key: unhex(&journal[5]).try_into().expect("a key"),
        };
        let details = details_in(&row);
        assert_read(side, &settings, row[8].as_bytes(), &details, &unhex(&row[5]));
    }
}

/// 1 to 4, which are asked before the form and the lengths of the outputs.
pub fn read_settings_refused(side: &dyn Calls) {
    let (good, form) = (by_hand(), form(side, SALE, &[1; 64]));
    let bytes = settings_bytes(&good);
    let with = |settings: Settings| settings_bytes(&settings).to_vec();
    for (settings, number) in [
        (Vec::new(), 1),
        (bytes[..122].to_vec(), 1),
        ([&bytes[..], &[0]].concat(), 1),
        ([&bytes[..], &[0; 32]].concat(), 1),
        (vec![0; SETTINGS], 1),
        (with(Settings { csp: *b"at0", ..good }), 1),
        (with(Settings { csp: *b"at0", id: Name::of(b""), ..good }), 1),
        (with(Settings { id: Name::of(b"K_1"), ..good }), 2),
        (with(Settings { id: Name { length: 2, ..good.id }, ..good }), 2),
        (with(Settings { id: Name { length: 33, ..good.id }, ..good }), 2),
        (with(Settings { id: Name::of(b""), serial: Name::of(b""), ..good }), 2),
        (with(Settings { serial: Name::of(b"2A"), ..good }), 3),
        (with(Settings { serial: Name::of(b""), width: 4, ..good }), 3),
        (with(Settings { width: 4, ..good }), 4),
        (with(Settings { width: 9, ..good }), 4),
    ] {
        assert_not_read(side, &settings, &form, [DETAILS, SIGNATURE], number);
        assert_not_read(side, &settings, b"", [DETAILS, SIGNATURE], number);
        assert_not_read(side, &settings, &form, [0, 0], number);
    }
}

/// 16 where a field is spelled otherwise, whatever the lengths of the outputs.
pub fn read_fields_refused(side: &dyn Calls) {
    let settings = settings_bytes(&by_hand());
    for (field, other) in [
        ("_R1-", "_R2-"),
        ("_R1-", "R1-"),
        ("AT0", "AT1"),
        ("K-1", "K-2"),
        ("K-1", "K-10"),
        ("_7_", "_0_"),
        ("_7_", "_07_"),
        ("_7_", "_4294967296_"),
        ("T08", "D08"),
        ("02-29", "02-30"),
        ("2016", "2100"),
        ("08:05", "24:05"),
        ("_10,50", "_010,50"),
        ("_10,50", "_10.50"),
        ("_10,50", "_-0,00"),
        ("_10,50", "_1000000000,00"),
        ("_10,50", "_-1000000000,00"),
        ("_-0,05", "_--0,05"),
        // six bytes, five with stray bits, five without padding, "STN"
        ("_AAAAAAA=", "_AAAAAAAA"),
        ("_AAAAAAA=", "_AAAAAAB="),
        ("_AAAAAAA=", "_AAAAAAA"),
        ("_AAAAAAA=", "_U1RO"),
        ("_2a_", "_2b_"),
        ("_2a_", "_2a_2a_"),
        // seven bytes and nine
        ("2a_AAAAAAAAAAA=", "2a_AAAAAAAAAA=="),
        ("2a_AAAAAAAAAAA=", "2a_AAAAAAAAAAAA"),
        ("2a_AAAAAAAAAAA=", "2a_AAAAAAAAAAA=_"),
    ] {
        assert!(SALE.contains(field), "{field}");
        let form = form(side, &SALE.replacen(field, other, 1), &[1; 64]);
        assert_not_read(side, &settings, &form, [DETAILS, SIGNATURE], 16);
        assert_not_read(side, &settings, &form, [DETAILS - 1, SIGNATURE + 1], 16);
    }
}

/// 16 where the frame of the form is another.
pub fn read_forms_refused(side: &dyn Calls) {
    let (settings, sale) = (settings_bytes(&by_hand()), form(side, SALE, &[1; 64]));
    let sale = &sale[..];
    for other in [
        Vec::new(),
        [&(sale.len() as u16).to_be_bytes(), sale].concat(),
        [sale, b"."].concat(),
        [sale, b"\n"].concat(),
        sale[..sale.len() - 1].to_vec(),
        sale[1..].to_vec(),
        SALE.as_bytes().to_vec(),
        form(side, SALE, &[1; 63]),
        form(side, SALE, &[1; 65]),
        form(side, SALE, b""),
        form(side, SALE, b"safety device failure"),
        form(side, SALE, b"Sicherheitseinrichtung ausgefallen."),
    ] {
        assert_not_read(side, &settings, &other, [DETAILS, SIGNATURE], 16);
    }
}

/// 16 under the settings of another register.
pub fn read_registers_refused(side: &dyn Calls) {
    let (good, sale) = (by_hand(), form(side, SALE, &[1; 64]));
    for other in [
        Settings { csp: *b"AT1", ..good },
        Settings { id: Name::of(b"K-2"), ..good },
        Settings { id: Name::of(b"K-"), ..good },
        Settings { serial: Name::of(b"2b"), ..good },
        Settings { width: 6, ..good },
        Settings { width: 8, ..good },
    ] {
        assert_not_read(side, &settings_bytes(&other), &sale, [DETAILS, SIGNATURE], 16);
    }
}

/// 23 where an output is shorter or longer than it must be, also the signature's where there is none.
pub fn read_outputs_refused(side: &dyn Calls) {
    let settings = settings_bytes(&by_hand());
    let signed = form(side, SALE, &[1; 64]);
    let failed = form(side, SALE, b"Sicherheitseinrichtung ausgefallen");
    for lengths in [[71, 64], [73, 64], [0, 64], [72, 63], [72, 65], [72, 0], [72, 34], [71, 65], [64, 72], [0, 0]] {
        assert_not_read(side, &settings, &signed, lengths, 23);
        assert_not_read(side, &settings, &failed, lengths, 23);
    }
}

// ---- the optical line

/// A call that reads one text and writes another.
type TextCall<'a> = &'a dyn Fn(&[u8], &mut [u8]) -> Written;

/// What the call writes to an output that is exactly long enough. One byte less gets 23, and one more stays as it is.
fn assert_writes(call: TextCall, text: &[u8], expected: &[u8], name: &str) {
    assert_writes_up_to(call, text, expected, name);
    assert_refuses(call, text, 23, &[0], name);
}

/// The same where nothing may be what is written, for which no output is too short.
fn assert_writes_up_to(call: TextCall, text: &[u8], expected: &[u8], name: &str) {
    let needed = expected.len();
    for room in [needed, needed + 1] {
        let mut output = vec![0xaa; room];
        assert_eq!(call(text, &mut output), Written { number: 0, length: needed }, "{name}");
        assert_eq!(&output[..needed], expected, "{name}");
        assert!(output[needed..].iter().all(|&byte| byte == 0xaa), "{name}: a byte after the end is changed");
    }
    if needed > 0 {
        assert_refuses(call, text, 23, &[needed - 1], name);
    }
}

/// The call is refused with this number, whatever the room, and changes no output.
fn assert_refuses(call: TextCall, text: &[u8], number: u32, rooms: &[usize], name: &str) {
    for &room in rooms {
        let mut output = vec![0xaa; room];
        assert_eq!(call(text, &mut output), Written { number, length: 0 }, "{name}, room {room}");
        assert!(output.iter().all(|&byte| byte == 0xaa), "{name}, room {room}: the output is changed");
    }
}

/// The code has this line, and the line this code.
fn assert_line(side: &dyn Calls, code: &[u8], line: &[u8], name: &str) {
    assert_writes(&|code, output| side.line(code, output), code, line, name);
    assert_writes(&|line, output| side.unline(line, output), line, code, name);
}

fn assert_no_line(side: &dyn Calls, code: &[u8], number: u32, name: &str) {
    assert_refuses(&|code, output| side.line(code, output), code, number, &[400, 1, 0], name);
}

fn assert_no_code(side: &dyn Calls, line: &[u8], name: &str) {
    assert_refuses(&|line, output| side.unline(line, output), line, 27, &[400, 1, 0], name);
}

pub fn ocr_line(side: &dyn Calls) {
    for row in rows("tests/data/ocr-line.tsv", 86) {
        let (input, output) = (unhex(&row[2]), unhex(&row[4]));
        match (row[1].as_str(), row[3].as_str()) {
            ("to-line", "0") => assert_line(side, &input, &output, &row[0]),
            ("to-code", "0") => assert_line(side, &output, &input, &row[0]),
            ("to-line", number) => assert_no_line(side, &input, number.parse().expect("a number"), &row[0]),
            ("to-code", "27") => assert_no_code(side, &input, &row[0]),
            other => panic!("{other:?}"),
        }
    }
}

/// The chain value that the ministry's paper prints in both spellings.
pub fn published_pair(side: &dyn Calls) {
    let mut value = [0; 8];
    assert_eq!(side.unbase64(0, b"hArhdCTSjbM=", &mut value), Written { number: 0, length: 8 });
    assert_writes(&|data, output| side.base32(data, output), &value, b"QQFOC5BE2KG3G===", "the published pair");
    assert_writes(&|text, output| side.unbase32(text, output), b"QQFOC5BE2KG3G===", &value, "the published pair");
    let code = printed(["VFJB", "hArhdCTSjbM=", FAILED.0]);
    let line = printed(["KRJEC===", "QQFOC5BE2KG3G===", FAILED.1]);
    assert_line(side, &code, &line, "the published pair");
}

/// The text of a failed device in BASE64 and in BASE32.
const FAILED: (&str, &str) =
    ("U2ljaGVyaGVpdHNlaW5yaWNodHVuZyBhdXNnZWZhbGxlbg==", "KNUWG2DFOJUGK2LUONSWS3TSNFRWQ5DVNZTSAYLVONTWKZTBNRWGK3Q=");

/// A code or a line with these texts as counter field, chain field and signature.
fn printed([counter, chain, signature]: [&str; 3]) -> Vec<u8> {
    format!("_R1-AT0_K-1_7_2016-02-29T08:05:00_10,50_0,00_0,00_0,78_-0,05_{counter}_2a_{chain}_{signature}")
        .into_bytes()
}

/// The same with another text at one of the three places.
fn printed_with<'a>(mut texts: [&'a str; 3], place: usize, text: &'a str) -> String {
    texts[place] = text;
    String::from_utf8(printed(texts)).expect("ASCII")
}

/// Codes spelled by hand, with fields of several lengths, and their lines.
pub fn lines_by_hand(side: &dyn Calls) {
    for (counter, chain) in [
        (("", ""), ("", "")),
        (("U1RP", "KNKE6==="), ("AAAAAAAAAAA=", "AAAAAAAAAAAAA===")),
        (("VFJB", "KRJEC==="), ("", "")),
        (("Zg==", "MY======"), ("Zm8=", "MZXQ====")),
        (("Zm9v", "MZXW6==="), ("Zm9vYg==", "MZXW6YQ=")),
        (("Zm9vYmE=", "MZXW6YTB"), ("Zm9vYmFy", "MZXW6YTBOI======")),
        // the same letters stand for other bytes
        (("AAAAAAA=", "AAAAAAAA"), ("AAAAAAAA", "AAAAAAAAAA======")),
    ] {
        let code = printed([counter.0, chain.0, FAILED.0]);
        let line = printed([counter.1, chain.1, FAILED.1]);
        assert_line(side, &code, &line, &format!("{counter:?} {chain:?}"));
    }
    // other fields are copied, whatever they are
    let code = [b"_R1-\0________\xff\n_Zg==_=_Zg==_", FAILED.0.as_bytes()].concat();
    let line = [b"_R1-\0________\xff\n_MY======_=_MY======_", FAILED.1.as_bytes()].concat();
    assert_line(side, &code, &line, "any bytes");
}

/// 24 and 26 in this order, and before 23.
pub fn lines_refused(side: &dyn Calls) {
    let good = ["Zm9v", "AAAAAAAAAAA=", FAILED.0];
    for text in ["Zg", "Zg=", "Zg===", "Zh==", "Zm9=", "Zm8==", "====", "Z===", "Zm9-", "Zm9 ", "Zg==Zg==", "MY======"]
    {
        for (place, number) in [(0, 26), (1, 26), (2, 24)] {
            let code = printed_with(good, place, text);
            assert_no_line(side, code.as_bytes(), number, &code);
        }
    }
    let code = printed_with(good, 0, good[0]);
    for (text, other, number) in [
        ("_R1-", "_R2-", 24),
        ("_R1-", "R1-", 24),
        ("_2a", "", 26),
        ("_2a", "_2a_", 26),
        ("_R1-AT0", "_R1-AT0_", 26),
        ("_10,50_0,00", "_10,50", 26),
        // 24 comes first
        ("_2a_AAAAAAAAAAA=_U2lj", "_U2lj", 26),
        ("_2a_AAAAAAAAAAA=_U2lj", "_U2l", 24),
        ("bg==", "bh==", 24),
        ("bg==", "bg", 24),
        ("bg==", "bg==_", 24),
        ("_U2lj", "_u2lj", 24),
    ] {
        assert!(code.contains(text), "{text}");
        assert_no_line(side, code.replacen(text, other, 1).as_bytes(), number, other);
    }
    for code in [&b""[..], b"_", b"_R1-", b"________________", &[0xff; 400]] {
        assert_no_line(side, code, 24, "no code");
    }
    assert_no_line(side, [b"_R1-_", FAILED.0.as_bytes()].concat().as_slice(), 26, "one field");
    assert_no_line(side, &printed(["KRJEC===", "QQFOC5BE2KG3G===", FAILED.1]), 24, "a line");
}

/// 27, which comes before 23.
pub fn unlines_refused(side: &dyn Calls) {
    let good = ["KNKE6===", "QQFOC5BE2KG3G===", FAILED.1];
    for text in [
        "MY",
        "MY=====",
        "MY=======",
        "my======",
        "mY======",
        "M1======",
        "M0======",
        "M8======",
        "M9======",
        "MZ======",
        "MZXR====",
        "MZXW7===",
        "MZXW6YR=",
        "MZX=====",
        "MZXW6Y==",
        "M=======",
        "========",
        "MZXW6YTB========",
        "MY======MY======",
        "=Y======",
        "MZXW6YT ",
        "MZXW6YTB\n",
        "MZXW6YT-",
        "U1RP",
        "Zg==",
    ] {
        for place in 0..3 {
            let line = printed_with(good, place, text);
            assert_no_code(side, line.as_bytes(), &line);
        }
    }
    // 63 bytes, 65, and 34 others
    for length in [0, 33, 34, 35, 63, 65, 66, 100] {
        let mut text = [0; 200];
        let written = side.base32(&vec![b'S'; length], &mut text);
        let line = printed_with(good, 2, std::str::from_utf8(&text[..written.length]).expect("letters"));
        assert_no_code(side, line.as_bytes(), &line);
    }
    let line = printed_with(good, 0, good[0]);
    for (text, other) in [
        ("_R1-", "_R2-"),
        ("_R1-", "R1-"),
        ("_2a", ""),
        ("_2a", "_2a_"),
        ("_R1-AT0", "_R1-AT0_"),
        ("_10,50_0,00", "_10,50"),
        ("GK3Q=", "GK3R="),
        ("GK3Q=", "GK3Q"),
        ("GK3Q=", "GK3Q=_"),
        ("_KNUWG", "_KNUWH"),
    ] {
        assert!(line.contains(text), "{text}");
        assert_no_code(side, line.replacen(text, other, 1).as_bytes(), other);
    }
    for line in [&b""[..], b"_", b"_R1-", b"________________", &[0xff; 400], &[b'_'; 5000]] {
        assert_no_code(side, line, "no line");
    }
    assert_no_code(side, &printed(["VFJB", "hArhdCTSjbM=", FAILED.0]), "a code");
}

/// The line of a code, which gives the code back.
fn line_and_back(side: &dyn Calls, code: &[u8]) -> Vec<u8> {
    let mut line = vec![0xaa; 400];
    let written = side.line(code, &mut line);
    assert_eq!(written.number, 0, "{}", String::from_utf8_lossy(code));
    line.truncate(written.length);
    assert_line(side, code, &line, "there and back");
    line
}

/// The receipt with the longest fields, of each width and kind: no line is longer than 313 bytes, and some are as long.
pub fn longest_line_of_a_receipt(side: &dyn Calls) {
    for (width, kind, length) in [(5, 0, 305), (6, 0, 313), (7, 0, 313), (8, 0, 313), (8, 1, 305), (8, 2, 305)] {
        let names = [Name::of(&[b'~'; 32]), Name::of(&[b'f'; 32])];
        let settings = Settings { csp: *b"ZZ9", id: names[0], serial: names[1], width, key: [9; 32] };
        let head = settings.head_length();
        let held = State { last_number: 4_294_967_294, receipts: 1, ..State::opened(&settings) };
        let details = Details { number: 4_294_967_295, date: GOOD_DATE, amounts: [-99_999_999_999; 5], kind };
        let (mut held, mut journal, mut code) = (state_bytes(&held), [0; 83 + 2 + LONGEST_COMPACT], [0; LONGEST_CODE]);
        assert_eq!(side.issue(&mut held, &details, &[0xa5; 64], &mut journal), 0);
        let written = side.code(&journal[head + 2..side.journal_length(&held)], &mut code);
        assert_eq!(written.number, 0);
        assert_eq!(line_and_back(side, &code[..written.length]).len(), length, "width {width}, kind {kind}");
    }
}

/// A code with a payload of so many bytes and so many bytes in the counter field and the chain field.
fn code_of_lengths(side: &dyn Calls, [counter, chain]: [usize; 2], payload: usize) -> Vec<u8> {
    let [counter, chain] = [counter, chain].map(|length| encoded(side, 0, &vec![0xa5; length]));
    let free = payload - b"_R1-___________".len() - counter.len() - chain.len();
    let fields = [b"_R1-_", &vec![b'x'; free][..], b"________", &counter, b"__", &chain].concat();
    assert_eq!(fields.len(), payload);
    [&fields[..], b"_", &encoded(side, 0, &[0x5a; 64])].concat()
}

/// Codes with the longest payload, 200 bytes, whose fields are of all lengths: no line is longer than 353 bytes, and some
/// are as long. With one byte more there is no code, and so no line.
pub fn longest_line_of_a_code(side: &dyn Calls) {
    let mut longest = 0;
    for counter in 0..=138 {
        let left = 185 - encoded(side, 0, &vec![0; counter]).len();
        for chain in [0, 1, 6, left / 4 * 3].into_iter().filter(|chain| chain.div_ceil(3) * 4 <= left) {
            let line = line_and_back(side, &code_of_lengths(side, [counter, chain], 200));
            longest = longest.max(line.len());
        }
    }
    assert_eq!(longest, 353);
    for lengths in [[126, 6], [6, 126]] {
        assert_eq!(line_and_back(side, &code_of_lengths(side, lengths, 200)).len(), 353);
    }
    for lengths in [[126, 6], [6, 126], [0, 0], [8, 8], [138, 0], [0, 138]] {
        let good = line_and_back(side, &code_of_lengths(side, lengths, 200));
        assert_no_line(side, &code_of_lengths(side, lengths, 201), 24, "201 bytes of payload");
        // the same byte more in the line, in a field that is copied
        let mut line = good.clone();
        line.insert(5, b'x');
        assert_no_code(side, &line, "201 bytes of payload");
    }
}
