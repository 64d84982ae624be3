//! Rows for the export and its reader with several pairs (requests E2 and E5), and for texts and first receipts with one thing
//! wrong.

use super::pairs::journal;
use super::short_settings;
use crate::calls::{Calls, Exported, Peer};
use crate::layout::STATE;
use crate::model::{COUNTER, Export, Journal, NUMBER, SERIAL, group_bytes, padded_text, url_text};
use crate::text::hex;

const WIDTH: u64 = 5;

/// What a row asks: a journal to be exported with certificates, or a text to be read.
pub enum Asked<'a> {
    Export { journal: &'a [u8], certificates: &'a [u8] },
    Read { text: &'a [u8] },
}

/// The answer to a row, and what was written, into room enough.
pub fn export_answer(side: &dyn Calls, asked: &Asked, key: &[u8], width: usize) -> (Exported, Vec<u8>) {
    let (answer, mut output) = match asked {
        Asked::Export { journal, certificates } => {
            let mut output = vec![0xaa; 2 * (journal.len() + certificates.len()) + 1000];
            (side.export(journal, key, width, certificates, &mut output), output)
        }
        Asked::Read { text } => {
            let (mut output, mut state) = (vec![0xaa; text.len()], [0xaa; STATE]);
            let answer = side.read_export(text, key, width, &mut output, &mut state);
            assert!(answer.number == 0 || state == [0; STATE], "the unopened state");
            (answer, output)
        }
    };
    assert!(output[answer.length..].iter().all(|&byte| byte == 0xaa), "a byte after the end is changed");
    output.truncate(answer.length);
    (answer, output)
}

/// The certificates of the pair at this place: one, and as many issuers as pairs before it, up to two.
fn group(place: usize) -> Vec<Vec<u8>> {
    (0..=place.min(2)).map(|i| (0..3 * place + i + 1).map(|k| (16 * place + 7 * i + k) as u8).collect()).collect()
}

fn groups(journal: &Journal) -> Vec<Vec<Vec<u8>>> {
    (0..journal.pairs.len()).map(group).collect()
}

fn certificates(journal: &Journal) -> Vec<u8> {
    groups(journal).iter().flat_map(|group| group_bytes(group)).collect()
}

fn export_of(journal: &Journal) -> Export {
    Export::with(journal, &groups(journal))
}

#[derive(Default)]
struct Table {
    rows: Vec<String>,
}

impl Table {
    fn add(&mut self, name: &str, asked: Asked) {
        let settings = short_settings(WIDTH);
        let (answer, output) = export_answer(&Peer, &asked, &settings.key, WIDTH as usize);
        let (call, input, certificates) = match asked {
            Asked::Export { journal, certificates } => ("export", journal, certificates),
            Asked::Read { text } => ("read", text, &b""[..]),
        };
        let numbers = [WIDTH.to_string(), answer.number.to_string(), answer.index.to_string()];
        let [width, number, index] = numbers.each_ref();
        let texts = [hex(&settings.key), hex(input), hex(certificates), hex(&output)];
        let [key, input, certificates, output] = texts.each_ref();
        self.rows.push([name, call, key, width, input, certificates, number, index, output].join("\t"));
    }

    fn write(&mut self, name: &str, journal: &[u8], certificates: &[u8]) {
        self.add(&format!("pairs-{name}"), Asked::Export { journal, certificates });
    }

    fn read(&mut self, name: &str, text: &[u8]) {
        self.add(&format!("pairs-{name}"), Asked::Read { text });
    }

    /// The export of a journal after an edit of its parts.
    fn edited(&mut self, name: &str, counts: &[usize], edit: impl Fn(&mut Export)) {
        let mut export = export_of(&journal(counts));
        edit(&mut export);
        self.read(name, &export.text());
    }

    /// The same where the edit is one of the journal.
    fn journal_edited(&mut self, name: &str, counts: &[usize], edit: impl Fn(&mut Journal)) {
        let mut journal = journal(counts);
        edit(&mut journal);
        self.read(name, &export_of(&journal).text());
    }
}

pub fn exports() -> Vec<String> {
    let mut table = Table::default();
    numbers_of_pairs(&mut table);
    other_certificates(&mut table);
    elements(&mut table);
    order(&mut table);
    first_receipts(&mut table);
    strings(&mut table);
    table.rows
}

fn numbers_of_pairs(table: &mut Table) {
    for pairs in [1, 2, 8, 9] {
        let journal = journal(&vec![1; pairs]);
        table.write(&format!("{pairs}"), &journal.bytes(), &certificates(&journal));
        table.read(&format!("{pairs}"), &export_of(&journal).text());
    }
    let journal = journal(&[0, 2, 0, 1]);
    table.write("some-empty", &journal.bytes(), &certificates(&journal));
    table.read("some-empty", &export_of(&journal).text());
}

fn other_certificates(table: &mut Table) {
    let journal = journal(&[2, 1]);
    let (bytes, good) = (journal.bytes(), certificates(&journal));
    let [first, second] = [0, 1].map(|place| group_bytes(&group(place)));
    table.write("certificates-one-group", &bytes, &first);
    table.write("certificates-three-groups", &bytes, &[&good[..], &first].concat());
    table.write("certificates-count-0-in-the-second", &bytes, &[&first[..], &[0]].concat());
    table.write("certificates-count-0-before", &bytes, &[&[0], &good[..]].concat());
    table.write("certificates-byte-after", &bytes, &[&good[..], &[0]].concat());
    table.write("certificates-cut", &bytes, &good[..good.len() - 1]);
    table.write("certificates-empty", &bytes, &[1, 0, 0, 2, 0, 0, 0, 0]);
    table.write("certificates-changed-places", &bytes, &[second, first].concat());
    // Take over is asked first, with the index over all pairs
    table.write("journal-first-asked", &bytes[..bytes.len() - 1], b"");
}

fn elements(table: &mut Table) {
    let counts = [2, 1, 2];
    table.edited("empty-outer-array", &counts, |export| export.elements.clear());
    table.edited("without-the-last", &counts, |export| drop(export.elements.pop()));
    table.edited("without-the-first", &counts, |export| drop(export.elements.remove(0)));
    table.edited("without-the-second", &counts, |export| drop(export.elements.remove(1)));
    table.edited("changed-places", &counts, |export| export.elements.swap(1, 2));
    table.edited("an-element-twice", &counts, |export| export.elements.push(export.elements[1].clone()));
    table.edited("receipt-to-the-next", &counts, |export| {
        let receipt = export.elements[0].receipts.remove(1);
        export.elements[1].receipts.insert(0, receipt);
    });
    table.edited("receipt-to-the-one-before", &counts, |export| {
        let receipt = export.elements[2].receipts.remove(0);
        export.elements[1].receipts.push(receipt);
    });
    table.edited("order-of-names", &counts, |export| {
        export.elements[0].order = [2, 1, 0];
        export.elements[1].order = [1, 0, 2];
        export.elements[2].order = [0, 2, 1];
    });
    for (name, field, other) in [("csp", 0, &b"R1-AT1"[..]), ("id", 1, b"K-2"), ("serial", SERIAL, b"2c")] {
        table.journal_edited(&format!("other-{name}-in-the-last"), &counts, |journal| {
            journal.entry(3).fields[field] = other.to_vec();
        });
        table.journal_edited(&format!("other-{name}-in-the-first"), &counts, |journal| {
            journal.entry(0).fields[field] = other.to_vec();
        });
    }
    table.journal_edited("serial-twice", &counts, |journal| {
        let serial = journal.pairs[0].serial.clone();
        journal.entry(3).fields[SERIAL] = serial;
    });
    table.journal_edited("counter-in-the-last", &counts, |journal| {
        journal.entry(4).fields[COUNTER] = padded_text(&[7; 5]);
    });
}

/// Two things wrong, the first question in the last element.
fn order(table: &mut Table) {
    let wrong = b"x.X1I.".to_vec();
    table.edited("28-before-29", &[1, 1, 1], |export| {
        export.elements[0].receipts.clear();
        export.elements[2].certificate = b"AR==".to_vec();
    });
    table.edited("29-before-28-of-a-first-receipt", &[1, 1, 1], |export| {
        export.elements[0].receipts[0] = wrong.clone();
        export.elements[2].receipts.clear();
    });
    table.edited("28-of-a-first-receipt-before-16", &[2, 1, 1], |export| {
        export.elements[0].receipts[1].clear();
        export.elements[2].receipts[0] = wrong.clone();
    });
    table.edited("name-twice-in-the-last", &[1, 1, 1], |export| {
        export.elements[0].receipts.clear();
        export.elements[2].order = [0, 2, 2];
    });
}

fn first_receipts(table: &mut Table) {
    for element in [0, 1] {
        let mut edit = |name: &str, edit: &dyn Fn(&mut Vec<Vec<u8>>)| {
            let place = if element == 0 { 0 } else { 2 };
            let name = format!("first-receipt-{name}-in-element-{element}");
            table.journal_edited(&name, &[2, 1], |journal| edit(&mut journal.entry(place).fields));
        };
        edit("eleven-fields", &|fields| drop(fields.pop()));
        edit("thirteen-fields", &|fields| fields.push(Vec::new()));
        edit("r2", &|fields| fields[0] = b"R2-AT0".to_vec());
        edit("csp", &|fields| fields[0] = b"R1-AT".to_vec());
        edit("id-empty", &|fields| fields[1].clear());
        edit("id-33-bytes", &|fields| fields[1] = vec![b'K'; 33]);
        edit("serial-capitals", &|fields| fields[SERIAL] = b"2A".to_vec());
        edit("serial-empty", &|fields| fields[SERIAL].clear());
        edit("number-250-digits", &|fields| fields[NUMBER] = vec![b'1'; 250]);
        edit("all-else-empty", &|fields| {
            for (place, field) in fields.iter_mut().enumerate() {
                if ![0, 1, SERIAL].contains(&place) {
                    field.clear();
                }
            }
        });
    }
    let payload = url_text(&journal(&[1]).entry(0).payload());
    let receipts: [(&str, Vec<u8>); 8] = [
        ("empty", Vec::new()),
        ("no-dot", payload.clone()),
        ("one-dot", [&b"."[..], &payload].concat()),
        ("two-dots", [&b"."[..], &payload, b"."].concat()),
        ("three-dots", [&b"."[..], &payload, b".."].concat()),
        ("middle-empty", b"..".to_vec()),
        ("middle-padded", [&b"."[..], &payload, b"=."].concat()),
        ("middle-stray-bits", [&b"."[..], &url_text(b"_R1-AT0_K-1_________2a_"), b"."].concat()),
    ];
    for (name, receipt) in receipts {
        let stray = name == "middle-stray-bits";
        table.edited(&format!("first-receipt-{name}"), &[1, 1], |export| {
            export.elements[1].receipts[0] = receipt.clone();
            if stray {
                let place = receipt.len() - 2;
                export.elements[1].receipts[0][place] += 1;
            }
        });
    }
}

fn strings(table: &mut Table) {
    let certificates: [(&str, &[u8]); 9] = [
        ("escape", b"AQ\\u003d\\u003d"),
        ("escape-capital", b"AQ\\u003D\\u003D"),
        ("escape-half", b"AQ=\\u003d"),
        ("stray-bits-4", b"AR=="),
        ("stray-bits-2", b"AQJ="),
        ("unpadded", b"AQ"),
        ("padded-too-much", b"AQID===="),
        ("blank-before", b" AQID"),
        ("url-letters", b"-_-_"),
    ];
    for (name, certificate) in certificates {
        table.edited(&format!("certificate-{name}"), &[1, 1], |export| {
            export.elements[1].certificate = certificate.to_vec();
        });
        table.edited(&format!("issuer-{name}"), &[1, 1], |export| {
            export.elements[0].issuers.push(certificate.to_vec());
        });
    }
    let inserted: [(&str, &[u8]); 12] = [
        ("blank", b" "),
        ("escape", b"\\u003d"),
        ("escape-capital", b"\\u003D"),
        ("byte-0", b"\0"),
        ("tab", b"\t"),
        ("byte-31", b"\x1f"),
        ("byte-126", b"~"),
        ("byte-127", b"\x7f"),
        ("byte-128", b"\x80"),
        ("quote", b"\""),
        ("escaped-quote", b"\\\""),
        ("escaped-backslash", b"\\\\"),
    ];
    for (name, bytes) in inserted {
        table.edited(&format!("receipt-with-{name}"), &[1, 2], |export| {
            export.elements[1].receipts[1].splice(25..25, bytes.iter().copied());
        });
    }
}
