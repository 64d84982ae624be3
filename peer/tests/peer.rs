//! The peer against the vectors, through the interface and part by part.

mod vectors;

use peer::base64;
use peer::calls::Peer;
use peer::code::LONGEST_CODE;
use peer::crypto::Aes256;
use peer::layout::{DETAILS, SETTINGS, STATE, details_bytes, details_of, list_bytes, list_of, state_bytes, state_of};
use peer::line::{LONGEST_ANY_LINE, LONGEST_LINE};
use peer::receipt::{
    Details, Kind, LONGEST_COMPACT, LONGEST_INPUT, LONGEST_PAYLOAD, counter_fits, counter_iv, decrypt_counter,
    encrypt_counter, push_amount, read_amount, read_date, read_entry, read_number,
};
use peer::register::{SERIALS, State};
use peer::rows::TABLES;
use peer::settings::{Name, Settings};
use peer::text::Text;
use vectors::{amounts_of, cancellation, date_of, header, kind_of, rows, text_of, unhex};

#[test]
fn sha256() {
    vectors::sha256(&Peer);
}

#[test]
fn base64_both_ways() {
    vectors::base64(&Peer);
}

#[test]
fn chain() {
    vectors::chain(&Peer);
}

#[test]
fn counter() {
    vectors::counter(&Peer);
}

#[test]
fn counter_bytes() {
    vectors::counter_bytes(&Peer);
}

#[test]
fn counter_sum() {
    vectors::counter_sum(&Peer);
}

#[test]
fn issue_limits() {
    vectors::issue_limits(&Peer);
}

#[test]
fn amount() {
    vectors::amount(&Peer);
}

#[test]
fn compact() {
    vectors::compact(&Peer);
}

#[test]
fn code() {
    vectors::code(&Peer);
}

#[test]
fn journals() {
    vectors::journals(&Peer);
}

#[test]
fn journals_by_lists() {
    vectors::journals_by_lists(&Peer);
}

#[test]
fn takeover() {
    vectors::takeover(&Peer);
}

#[test]
fn takeover_pairs() {
    vectors::takeover_pairs(&Peer);
}

#[test]
fn paper() {
    vectors::paper(&Peer);
}

#[test]
fn version() {
    vectors::version(&Peer);
}

#[test]
fn open() {
    vectors::open(&Peer);
}

#[test]
fn one_key_for_two_registers() {
    vectors::one_key_for_two_registers(&Peer);
}

#[test]
fn change() {
    vectors::change(&Peer);
}

#[test]
fn changes_by_hand() {
    vectors::changes_by_hand(&Peer);
}

#[test]
fn serials_of_a_state() {
    vectors::serials_of_a_state(&Peer);
}

#[test]
fn counts_at_any_place() {
    vectors::counts_at_any_place(&Peer);
}

#[test]
fn lists_by_hand() {
    vectors::lists_by_hand(&Peer);
}

#[test]
fn lists_refused() {
    vectors::lists_refused(&Peer);
}

#[test]
fn lists_with_the_start() {
    vectors::lists_with_the_start(&Peer);
}

#[test]
fn lists_into_room() {
    vectors::lists_into_room(&Peer);
}

#[test]
fn lists_cut_or_empty() {
    vectors::lists_cut_or_empty(&Peer);
}

#[test]
fn long_list() {
    vectors::long_list(&Peer);
}

#[test]
fn steps_accepted() {
    vectors::steps::steps_accepted(&Peer);
}

#[test]
fn steps_of_the_vectors() {
    vectors::steps::steps_of_the_vectors(&Peer);
}

#[test]
fn steps_refused() {
    vectors::steps::steps_refused(&Peer);
}

#[test]
fn steps_under_the_state() {
    vectors::steps::steps_under_the_state(&Peer);
}

#[test]
fn steps_by_the_count() {
    vectors::steps::steps_by_the_count(&Peer);
}

#[test]
fn steps_read_no_more() {
    vectors::steps::steps_read_no_more(&Peer);
}

#[test]
fn steps_from_bad_states() {
    vectors::steps::steps_from_bad_states(&Peer);
}

#[test]
fn heads_checked() {
    vectors::steps::heads_checked(&Peer);
}

#[test]
fn month_by_month() {
    vectors::steps::month_by_month(&Peer);
}

#[test]
fn export() {
    vectors::exports::export(&Peer);
}

#[test]
fn exports_by_hand() {
    vectors::exports::exports_by_hand(&Peer);
}

#[test]
fn exports_at_the_limits() {
    vectors::exports::exports_at_the_limits(&Peer);
}

#[test]
fn read_by_hand() {
    vectors::read_by_hand(&Peer);
}

#[test]
fn receipts_read() {
    vectors::receipts_read(&Peer);
}

#[test]
fn read_settings_refused() {
    vectors::read_settings_refused(&Peer);
}

#[test]
fn read_fields_refused() {
    vectors::read_fields_refused(&Peer);
}

#[test]
fn read_forms_refused() {
    vectors::read_forms_refused(&Peer);
}

#[test]
fn read_registers_refused() {
    vectors::read_registers_refused(&Peer);
}

#[test]
fn read_outputs_refused() {
    vectors::read_outputs_refused(&Peer);
}

#[test]
fn base32() {
    vectors::base32(&Peer);
}

#[test]
fn ocr_line() {
    vectors::ocr_line(&Peer);
}

#[test]
fn published_pair() {
    vectors::published_pair(&Peer);
}

#[test]
fn lines_by_hand() {
    vectors::lines_by_hand(&Peer);
}

#[test]
fn lines_refused() {
    vectors::lines_refused(&Peer);
}

#[test]
fn unlines_refused() {
    vectors::unlines_refused(&Peer);
}

#[test]
fn longest_line_of_a_receipt() {
    vectors::longest_line_of_a_receipt(&Peer);
}

#[test]
fn longest_line_of_a_code() {
    vectors::longest_line_of_a_code(&Peer);
}

fn block(text: &str) -> [u8; 16] {
    unhex(text).try_into().expect("a block")
}

fn key(text: &str) -> [u8; 32] {
    unhex(text).try_into().expect("a key")
}

#[test]
fn aes256() {
    for row in rows("tests/data/aes256.tsv", 71) {
        assert_eq!(Aes256::new(&key(&row[1])).encrypt(&block(&row[2])), block(&row[3]), "{}", row[0]);
    }
    for row in rows("tests/data/aes256-ctr.tsv", 4) {
        assert_eq!(Aes256::new(&key(&row[1])).encrypt(&block(&row[2])), block(&row[3]), "{}", row[0]);
    }
}

#[test]
fn counter_parts() {
    for row in rows("tests/data/counter.tsv", 64) {
        let width: usize = row[0].parse().expect("a width");
        let cents: i64 = row[4].parse().expect("cents");
        let aes = Aes256::new(&key(&row[1]));
        let iv = counter_iv(row[2].as_bytes(), row[3].as_bytes());
        assert_eq!(iv, block(&row[5]), "{row:?}");
        assert_eq!(aes.encrypt(&iv), block(&row[6]), "{row:?}");
        assert_eq!(cents.to_be_bytes()[8 - width..], unhex(&row[7]), "{row:?}");
        let encrypted = encrypt_counter(&aes, &iv, cents, width);
        assert_eq!(encrypted[..width], unhex(&row[8]), "{row:?}");
        assert_eq!(encrypted[width..], [0; 8][width..], "{row:?}");
        assert_eq!(decrypt_counter(&aes, &iv, &encrypted, width), cents, "{row:?}");
        let mut field = vec![0; base64::padded_letters(width)];
        base64::write_padded(&encrypted[..width], &mut field);
        assert_eq!(field, row[9].as_bytes(), "{row:?}");
    }
    for row in rows("tests/data/counter-iv.tsv", 3) {
        assert_eq!(counter_iv(row[1].as_bytes(), row[2].as_bytes()), block(&row[3]), "{}", row[0]);
    }
    for row in rows("tests/data/counter-bytes.tsv", 102) {
        let fits = counter_fits(row[1].parse().expect("cents"), row[0].parse().expect("a width"));
        assert_eq!(fits, row[2] == "yes", "{row:?}");
    }
}

/// The tables end with the rows that the peer computes.
#[test]
fn rows_of_the_peer() {
    for (table, rows) in TABLES {
        let (text, rows) = (text_of(table), rows());
        let lines: Vec<&str> = text.lines().collect();
        assert_eq!(lines[lines.len().saturating_sub(rows.len())..], rows, "{table}");
    }
}

/// The sizes of the header are those of the layouts, and those that follow from the limits.
#[test]
fn sizes_of_the_header() {
    let header = header();
    for (name, size) in [
        ("SETTINGS", SETTINGS),
        ("STATE", STATE),
        ("DETAILS", DETAILS),
        ("MOST_SERIALS", SERIALS),
        ("LONGEST_NAME", 32),
        ("LONGEST_HEAD", 19 + 32 + 32),
        ("LONGEST_CHANGE", 8 + 32),
        ("LONGEST_PAYLOAD", LONGEST_PAYLOAD),
        ("LONGEST_INPUT", LONGEST_INPUT),
        ("LONGEST_COMPACT", LONGEST_COMPACT),
        ("LONGEST_ENTRY", 2 + LONGEST_COMPACT),
        ("LONGEST_CODE", LONGEST_CODE),
        ("LONGEST_LINE", LONGEST_LINE),
        ("LONGEST_ANY_LINE", LONGEST_ANY_LINE),
    ] {
        let start = format!("DITGRUX_{name} = ");
        let number = header.split_once(&start).expect("a size").1.split(|letter: char| !letter.is_ascii_digit()).next();
        assert_eq!(number, Some(size.to_string().as_str()), "{name}");
    }
}

/// Width 8 has no value of i64 outside; sums just outside don't fit.
#[test]
fn ends_of_width_8() {
    assert!(counter_fits(i64::MAX as i128, 8) && counter_fits(i64::MIN as i128, 8));
    assert!(!counter_fits(i64::MAX as i128 + 1, 8) && !counter_fits(i64::MIN as i128 - 1, 8));
}

#[test]
fn amounts_written_and_read() {
    for row in rows("tests/data/amount.tsv", 26) {
        let cents: i64 = row[0].parse().expect("cents");
        let mut text = Text::<13>::new();
        push_amount(&mut text, cents);
        assert_eq!(text.bytes(), row[1].as_bytes());
        assert_eq!(read_amount(row[1].as_bytes()), Some(cents));
    }
    for bad in [
        "",
        "-",
        ",",
        ",00",
        "-,00",
        "0",
        "0,",
        "0,0",
        "0,000",
        "-0,00",
        "00,00",
        "01,00",
        "-01,00",
        "+1,00",
        "1.00",
        "1,0a",
        "a,00",
        "1000000000,00",
        "-1000000000,00",
        "0999999999,99",
        // 2^63 cents, -2^63, and 2^64 + 5
        "92233720368547758,08",
        "-92233720368547758,08",
        "184467440737095516,21",
        " 1,00",
        "1,00 ",
        "--1,00",
        "1,-1",
        "1,,00",
    ] {
        assert_eq!(read_amount(bad.as_bytes()), None, "{bad}");
    }
}

#[test]
fn numbers_read() {
    for good in ["1", "9", "10", "4294967295"] {
        assert_eq!(read_number(good.as_bytes()), good.parse().ok(), "{good}");
    }
    for bad in
        ["", "0", "01", "-1", "+1", "4294967296", "9999999999", "10000000000", "18446744073709551617", "1a", " 1"]
    {
        assert_eq!(read_number(bad.as_bytes()), None, "{bad}");
    }
}

/// The days of the hundred years, counted.
#[test]
fn days_of_the_calendar() {
    let mut days = 0;
    for year in 1999..=2100 {
        for month in 0..=13 {
            for day in 0..=32 {
                let text = format!("{year:04}-{month:02}-{day:02}T00:00:00");
                if read_date(text.as_bytes()).is_some() {
                    days += 1;
                }
            }
        }
    }
    // 100 years with 25 leap days
    assert_eq!(days, 100 * 365 + 25);
    for bad in [
        "2016-02-29D08:05:00",
        "2016-02-29t08:05:00",
        "2016-02-29 08:05:00",
        "2016-02-29T24:00:00",
        "2016-02-29T08:60:00",
        "2016-02-29T08:05:60",
        "2016/02/29T08:05:00",
        "2016-02-29T08-05-00",
        "2016-02-29T08:05:0",
        "2016-02-29T08:05:000",
        "2016-2-29T08:05:00",
        "2016-02-29T08:05:0a",
        "",
    ] {
        assert_eq!(read_date(bad.as_bytes()), None, "{bad}");
    }
}

/// Each receipt of the three journals, read back as it was issued.
#[test]
fn entries_read() {
    let receipts = rows("tests/data/receipts.tsv", 13);
    let mut seen = 0;
    for row in rows("tests/data/journals.tsv", 3) {
        let settings = Settings {
            csp: row[1].as_bytes().try_into().expect("a CSP"),
            id: Name::of(row[2].as_bytes()),
            serial: Name::of(row[3].as_bytes()),
            width: row[4].parse().expect("a width"),
            key: key(&row[5]),
        };
        for receipt in receipts.iter().filter(|receipt| receipt[0] == row[0]) {
            seen += 1;
            let read = read_entry(&settings, receipt[8].as_bytes()).expect("well spelled");
            assert_eq!(read.number.to_string(), receipt[1]);
            assert_eq!(read.date, date_of(&receipt[2]));
            assert_eq!(read.amounts, amounts_of(&receipt[3]));
            assert_eq!(Kind::of(kind_of(&receipt[4])), Some(read.kind));
            assert_eq!(read.chain.to_vec(), unhex(&receipt[9]));
            for other in [5, 6, 7, 8].into_iter().filter(|other| *other != settings.width) {
                let answer = read_entry(&Settings { width: other, ..settings }, receipt[8].as_bytes());
                assert_eq!(answer.is_none(), read.kind == Kind::Standard, "{}", receipt[1]);
            }
        }
    }
    assert_eq!(seen, 13);
}

/// Any 447 bytes are a state with one spelling; other lengths are the unopened state.
#[test]
fn states_as_bytes() {
    let mut bytes = [0u8; STATE];
    for place in 0..STATE {
        for byte in [1, 0x80, 0xff] {
            bytes[place] = byte ^ place as u8;
            assert_eq!(state_bytes(&state_of(&bytes)), bytes);
        }
    }
    for length in [0, 1, 155, 446, 448, 894] {
        assert_eq!(state_of(&vec![0xff; length]), State::default());
    }
    assert_eq!(state_bytes(&State::default()), [0; STATE]);
}

/// Different details have different bytes, and the worked example has those of the header.
#[test]
fn details_as_bytes() {
    let (details, example) = cancellation();
    assert_eq!(details_bytes(&details).to_vec(), example);
    let mut bytes = [0u8; DETAILS];
    for place in 0..DETAILS {
        bytes[place] = 0xff ^ place as u8;
        assert_eq!(details_bytes(&details_of(&bytes)), bytes);
    }
}

/// A list is its details one after the other; where bytes are left over, it is one receipt without a number.
#[test]
fn lists_as_bytes() {
    let (details, example) = cancellation();
    for length in 0..4 {
        let (list, bytes) = (vec![details; length], example.repeat(length));
        assert_eq!(list_bytes(&list), bytes);
        assert_eq!(list_of(&bytes), list);
        for rest in [1, 35, DETAILS - 1] {
            assert_eq!(list_of(&[&bytes[..], &example[..rest]].concat()), [Details::default()]);
        }
    }
}
