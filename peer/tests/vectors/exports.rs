//! The export and its reader, asked of either side: the published vectors, the peer's rows, and texts spelled by hand.

use peer::calls::{Calls, Exported};
use peer::layout::{STATE, settings_bytes};
use peer::rows::{Asked, export_answer};

use super::{by_hand, receipt, rows, unhex};

/// The answer of a call that is not refused.
fn done(length: usize) -> Exported {
    Exported { number: 0, index: 0, length }
}

/// The rows: the last ones are the peer's.
pub fn export(side: &dyn Calls) {
    for row in rows("tests/data/export.tsv", 51 + 98) {
        let (key, width): (Vec<u8>, usize) = (unhex(&row[2]), row[3].parse().expect("a width"));
        let (input, certificates, output) = (unhex(&row[4]), unhex(&row[5]), unhex(&row[8]));
        let asked = match row[1].as_str() {
            "export" => Asked::Export { journal: &input, certificates: &certificates },
            "read" => Asked::Read { text: &input },
            other => panic!("{other}"),
        };
        let number = |column: usize| row[column].parse::<u32>().expect("a number");
        let answer = Exported { number: number(6), index: number(7), length: output.len() };
        assert_eq!(export_answer(side, &asked, &key, width), (answer, output.clone()), "{} {}", row[1], row[0]);
        if answer.number == 0 {
            room(side, &asked, &key, width, &output);
        }
        match asked {
            Asked::Export { journal, .. } if answer.number == 0 => back(side, journal, &output, &key, width),
            Asked::Read { text } if answer.number == 0 => taken_over(side, text, &output, &key, width),
            _ => (),
        }
    }
}

/// The call with exactly as much room as it needs, and with a byte less.
fn room(side: &dyn Calls, asked: &Asked, key: &[u8], width: usize, written: &[u8]) {
    let call = |room: usize| {
        let mut output = vec![0xaa; room];
        let answer = match asked {
            Asked::Export { journal, certificates } => side.export(journal, key, width, certificates, &mut output),
            Asked::Read { text } => side.read_export(text, key, width, &mut output, &mut [0xaa; STATE]),
        };
        (answer, output)
    };
    assert_eq!(call(written.len()), (done(written.len()), written.to_vec()));
    for room in [written.len() - 1, 0] {
        assert_eq!(call(room), (Exported::refused(23, 0), vec![0xaa; room]));
    }
}

/// An export reads back to its journal, if every pair has a receipt.
fn back(side: &dyn Calls, journal: &[u8], text: &[u8], key: &[u8], width: usize) {
    let (answer, output) = export_answer(side, &Asked::Read { text }, key, width);
    let empty = text.windows(18).any(|part| part == b"Belege-kompakt\":[]");
    let expected = if empty { (Exported::refused(29, 0), vec![]) } else { (done(journal.len()), journal.to_vec()) };
    assert_eq!((answer, output), expected);
}

/// The journal of a text is taken over with the same state.
fn taken_over(side: &dyn Calls, text: &[u8], journal: &[u8], key: &[u8], width: usize) {
    let (mut state, mut taken) = ([0xaa; STATE], [0xaa; STATE]);
    side.read_export(text, key, width, &mut vec![0; journal.len()], &mut state);
    assert_eq!(side.take_over(journal, key, width, &mut taken).number, 0);
    assert_eq!(state, taken);
}

/// A journal of two pairs with a receipt each, and the compact forms in it.
fn two_pairs(side: &dyn Calls) -> (Vec<u8>, [String; 2]) {
    let (mut journal, mut state) = (vec![0; 2000], [0; STATE]);
    assert_eq!(side.open(&settings_bytes(&by_hand()), &mut journal, &mut state), 0);
    let mut forms = Vec::new();
    for number in 1..=2 {
        let start = side.journal_length(&state) + 2;
        let details = receipt(number, 100 * (number as i64 - 1), 0);
        assert_eq!(side.issue(&mut state, &details, &[], &mut journal), 0);
        forms.push(String::from_utf8(journal[start..side.journal_length(&state)].to_vec()).expect("ASCII"));
        if number == 1 {
            assert_eq!(side.change(&mut state, b"beef", &mut journal), 0);
        }
    }
    journal.truncate(side.journal_length(&state));
    (journal, forms.try_into().expect("two receipts"))
}

/// An export of two pairs, letter by letter, and the same with blanks, another order and escapes.
pub fn exports_by_hand(side: &dyn Calls) {
    let (journal, [first, second]) = two_pairs(side);
    let settings = by_hand();
    let (key, width) = (settings.key, settings.width as usize);
    let certificates = [&[1, 0, 4][..], &[0xde, 0xad, 0xbe, 0xef], &[3, 0, 0, 0, 3], b"abc", &[0, 1], b"z"].concat();
    let text = format!(
        "{{\"Belege-Gruppe\":[{{\"Signaturzertifikat\":\"3q2+7w==\",\"Zertifizierungsstellen\":[],\
         \"Belege-kompakt\":[\"{first}\"]}},{{\"Signaturzertifikat\":\"\",\"Zertifizierungsstellen\":[\"YWJj\",\"eg==\"],\
         \"Belege-kompakt\":[\"{second}\"]}}]}}"
    );
    let asked = Asked::Export { journal: &journal, certificates: &certificates };
    assert_eq!(export_answer(side, &asked, &key, width), (done(text.len()), text.clone().into_bytes()));
    room(side, &asked, &key, width, text.as_bytes());

    let other = format!(
        " {{ \"Belege-Gruppe\"\t:\r\n[ {{ \"Belege-kompakt\" : [ \"{first}\" ] , \"Zertifizierungsstellen\" : [ ] ,\n\
         \"Signaturzertifikat\":\"3q2+7w\\u003d\\u003d\" }} ,\n{{\"Zertifizierungsstellen\":[\"YWJj\" , \"eg=\\u003d\"],\
         \"Signaturzertifikat\":\"\",\"Belege-kompakt\":[\"{second}\"]}} ] }}\n"
    );
    for text in [&text, &other] {
        let asked = Asked::Read { text: text.as_bytes() };
        assert_eq!(export_answer(side, &asked, &key, width), (done(journal.len()), journal.clone()));
        room(side, &asked, &key, width, &journal);
        taken_over(side, text.as_bytes(), &journal, &key, width);
    }
    for state in [0, STATE - 1, STATE + 1] {
        let (mut output, mut state) = (vec![0xaa; journal.len()], vec![0xaa; state]);
        let answer = side.read_export(b"", &key[1..], 0, &mut output, &mut state);
        assert_eq!(answer, Exported::refused(6, 0));
        assert!(output.iter().chain(&state).all(|&byte| byte == 0xaa));
    }
    for (key, width) in [(&key[..31], width), (&key[..], 4), (&key, 9)] {
        assert_eq!(export_answer(side, &asked, key, width).0, Exported::refused(4, 0));
        let read = |text: &str| export_answer(side, &Asked::Read { text: text.as_bytes() }, key, width).0;
        // 4 comes last here
        assert_eq!(read(&text), Exported::refused(4, 0));
        assert_eq!(read(&text.replace(&second, "")), Exported::refused(28, 0));
        assert_eq!(read(&text.replace(&format!("\"{first}\""), "")), Exported::refused(29, 0));
        let short = side.read_export(text.as_bytes(), key, width, &mut [0; 50], &mut [0; STATE]);
        assert_eq!(short, Exported::refused(23, 0));
    }
}

/// Receipts of 65,535 bytes and of one more, as they are and in escapes, and certificates of any length.
pub fn exports_at_the_limits(side: &dyn Calls) {
    let (journal, [first, second]) = two_pairs(side);
    let settings = by_hand();
    let element = |certificate: &str, receipts: &[&str]| {
        let receipts = receipts.join("\",\"");
        format!(
            "{{\"Signaturzertifikat\":\"{certificate}\",\"Zertifizierungsstellen\":[],\"Belege-kompakt\":[\"{receipts}\"]}}"
        )
    };
    let read = |elements: &[String]| {
        let text = format!("{{\"Belege-Gruppe\":[{}]}}", elements.join(","));
        export_answer(side, &Asked::Read { text: text.as_bytes() }, &settings.key, settings.width as usize)
    };
    for (length, number, index) in [(65_535, 16, 1), (65_536, 28, 0), (131_071, 28, 0)] {
        for letter in ["a", "=", "\\u003d"] {
            let long = letter.repeat(length);
            let elements = [element("", &[&first, &long]), element("", &[&second])];
            assert_eq!(read(&elements).0, Exported::refused(number, index), "{length} of {letter}");
        }
    }
    // a first receipt is as long as it likes; its header is not looked at
    let rest = first.split_once('.').expect("a dot").1;
    for (length, number) in [(65_535, 16), (65_536, 28)] {
        let long = format!("{}.{rest}", "\\u003d".repeat(length - rest.len() - 1));
        assert_eq!(read(&[element("", &[&long])]).0, Exported::refused(number, 0), "{length}");
    }
    let certificate = "AAAA".repeat(30_000);
    let elements = [element(&certificate, &[&first]), element("", &[&second])];
    assert_eq!(read(&elements), (done(journal.len()), journal));
}
