//! Rows for Take over with journals of several pairs (request E5): cut at every byte of a later pair, and with one thing
//! wrong.

use super::{bytes_row, given, short_settings, signature};
use crate::model::{CHAIN, COUNTER, Given, Journal, Pair, SERIAL, padded_text, pair_places};
use crate::receipt::chain_value;
use crate::register::SERIALS;
use crate::settings::Settings;

const NAMES: [&[u8]; 9] = [b"2a", b"2b", b"0", b"f00d", b"00", b"2a0", b"deadbeef", b"9", b"c0ffee"];

/// Start receipt, sale, cancellation, training, and sales.
fn receipts(number: usize) -> Vec<Given> {
    let kinds = [0, 1, 2, 0, 0, 0, 0, 0];
    let later: Vec<([i64; 5], u32)> =
        (1..number).map(|i| ([1050 * i as i64, 0, -5, 78, 0], kinds[(i - 1) % 8])).collect();
    given(&later, number as u32)
}

/// A journal with so many receipts in each of its pairs.
pub(super) fn journal(counts: &[usize]) -> Journal {
    let settings = short_settings(5);
    let mut rest = receipts(counts.iter().sum::<usize>().max(1)).into_iter();
    let pairs: Vec<(Vec<u8>, Vec<Given>)> =
        NAMES.iter().zip(counts).map(|(name, &count)| (name.to_vec(), rest.by_ref().take(count).collect())).collect();
    Journal::with_pairs(&settings, &pairs)
}

struct Table {
    settings: Settings,
    rows: Vec<String>,
}

impl Table {
    fn add_bytes(&mut self, name: &str, journal: &[u8]) {
        self.rows.push(bytes_row(name, &self.settings, journal));
    }

    fn add(&mut self, name: &str, journal: &Journal) {
        self.add_bytes(name, &journal.bytes());
    }

    /// The journal of these counts after an edit, with counters and chain made right from this entry on.
    fn edited(&mut self, name: &str, counts: &[usize], from: usize, edit: impl Fn(&mut Journal)) {
        let mut journal = journal(counts);
        edit(&mut journal);
        journal.all_right(from, &self.settings);
        self.add(name, &journal);
    }
}

pub fn takeover_pairs() -> Vec<String> {
    let mut table = Table { settings: short_settings(5), rows: Vec::new() };
    numbers_of_pairs(&mut table);
    cuts(&mut table);
    bytes_after(&mut table);
    counts(&mut table);
    serials(&mut table);
    run_on(&mut table);
    table.rows
}

fn numbers_of_pairs(table: &mut Table) {
    for pairs in 1..=9 {
        table.add(&format!("pairs-{pairs}-without-receipts"), &journal(&vec![0; pairs]));
        table.add(&format!("pairs-{pairs}-with-a-receipt"), &journal(&vec![1; pairs]));
    }
    table.add("pairs-some-empty", &journal(&[0, 2, 0, 0, 1, 0]));
    table.add("pairs-all-but-the-last-empty", &journal(&[0, 0, 0, 0, 0, 0, 0, 3]));
}

/// Cut at every byte from the last of the first pair to the first of the second pair's entries.
fn cuts(table: &mut Table) {
    let bytes = journal(&[1, 2, 1]).bytes();
    let second = &pair_places(&bytes)[1];
    for cut in second.start - 1..second.count + 8 {
        table.add_bytes(&format!("cut-{}-after-the-first-pair", cut as isize - second.start as isize), &bytes[..cut]);
    }
}

/// What follows a journal of one pair and of eight.
fn bytes_after(table: &mut Table) {
    for counts in [&[2][..], &[1, 0, 2, 0, 0, 1, 0, 0]] {
        let whole = journal(counts);
        let used = whole.pairs[counts.len() - 1].serial.clone();
        for (name, serial, count) in [
            ("new", &b"c0ffee"[..], &[0; 4][..]),
            ("new-with-a-receipt-missing", b"c0ffee", &[0, 0, 0, 1]),
            ("newest", &used, &[0; 4]),
            ("first", b"2a", &[0; 4]),
            ("first-with-a-receipt-missing", b"2a", &[0, 0, 0, 1]),
            ("capitals", b"C0FFEE", &[0; 4]),
            ("first-in-capitals", b"2A", &[0; 4]),
            ("empty", b"", &[0; 4]),
            ("32-letters", &[b'e'; 32], &[0; 4]),
            ("33-letters", &[b'e'; 33], &[0; 4]),
            ("new-count-cut-1", b"c0ffee", &[0; 3]),
            ("new-count-cut-4", b"c0ffee", &[]),
            ("newest-count-cut-1", &used, &[0; 3]),
            ("first-count-cut-1", b"2a", &[0; 3]),
            ("first-count-cut-4", b"2a", &[]),
            ("new-and-a-byte", b"c0ffee", &[0; 5]),
        ] {
            let pair = [&(serial.len() as u32).to_be_bytes(), serial, count].concat();
            table.add_bytes(&format!("after-{}-{name}", counts.len()), &[whole.bytes(), pair].concat());
        }
        for zeros in [1, 4, 8, 12] {
            table
                .add_bytes(&format!("after-{}-zeros-{zeros}", counts.len()), &[whole.bytes(), vec![0; zeros]].concat());
        }
    }
}

fn counts(table: &mut Table) {
    let good = [1, 2, 1];
    for which in 0..3 {
        for (name, more) in [("more", 1), ("less", u32::MAX), ("all-bits", u32::MAX - good[which] as u32)] {
            let edit =
                |journal: &mut Journal| journal.pairs[which].count = journal.pairs[which].count.wrapping_add(more);
            table.edited(&format!("count-{which}-{name}"), &good, 0, edit);
        }
    }
    table.edited("last-entry-moved-on", &good, 0, |journal| {
        let entry = journal.pairs[1].entries.pop().expect("two entries");
        journal.pairs[2].entries.insert(0, entry);
        journal.pairs[1].count -= 1;
        journal.pairs[2].count += 1;
    });
    table.edited("first-entry-moved-back", &good, 0, |journal| {
        let entry = journal.pairs[1].entries.remove(0);
        journal.pairs[0].entries.push(entry);
        journal.pairs[0].count += 1;
        journal.pairs[1].count -= 1;
    });
}

fn serials(table: &mut Table) {
    let good = [1, 2, 1];
    for which in 0..3 {
        for other in [b"2a", b"2b", &b"0"[..], b"c0ffee", b"2A"] {
            let text = String::from_utf8_lossy(other);
            table.edited(&format!("serial-{which}-is-{text}"), &good, 0, |journal| {
                journal.pairs[which].serial = other.to_vec();
            });
            table.edited(&format!("serial-{which}-and-its-receipts-are-{text}"), &good, 0, |journal| {
                journal.pairs[which].serial = other.to_vec();
                journal.pairs[which].entries.iter_mut().for_each(|entry| entry.fields[SERIAL] = other.to_vec());
            });
        }
    }
    for (index, serial) in [(0, b"2b"), (1, b"2a"), (2, b"2a"), (3, b"2b")] {
        let name = format!("receipt-{index}-has-{}", String::from_utf8_lossy(serial));
        table.edited(&name, &good, index, |journal| journal.entry(index).fields[SERIAL] = serial.to_vec());
    }
    // a ninth that was used, and a tenth
    let nine = [1, 1, 0, 0, 1, 0, 0, 1, 1];
    for (which, used) in NAMES[..SERIALS].iter().enumerate() {
        table.edited(&format!("ninth-is-serial-{which}"), &nine, 0, |journal| {
            journal.pairs[SERIALS].serial = used.to_vec();
        });
    }
    table.edited("tenth", &nine, 0, |journal| journal.pairs.push(Pair::empty(b"10")));
}

/// Number, chain, counter and start receipt are the register's, not a pair's.
fn run_on(table: &mut Table) {
    let good = [2, 2];
    table.edited("number-again", &good, 2, |journal| journal.entry(2).fields[2] = b"2".to_vec());
    table.edited("number-from-1", &good, 2, |journal| journal.entry(2).fields[2] = b"1".to_vec());
    table.edited("chain-from-the-id", &good, 3, |journal| {
        let id = journal.id.clone();
        journal.entry(2).fields[CHAIN] = padded_text(&chain_value(&id));
    });
    let key = table.settings.key;
    let mut restarted = journal(&[2, 0, 2, 1]);
    let mut alone = restarted.clone();
    alone.pairs[0].entries.clear();
    alone.entry(0).fields[COUNTER] = Vec::new();
    alone.counters_right(0, &key, 5);
    restarted.entry(2).fields[COUNTER] = alone.entry(0).fields[COUNTER].clone();
    restarted.chain_right(3);
    table.add("counter-from-0", &restarted);
    table.edited("start-in-the-third-pair", &[0, 0, 2, 1], 0, |_| ());
    table.edited("no-start-in-the-third-pair", &[0, 0, 2, 1], 0, |journal| {
        journal.entry(0).fields[4] = b"0,01".to_vec();
    });
    table.edited("start-again", &good, 2, |journal| {
        journal.entry(2).fields[4..9].fill(b"0,00".to_vec());
        journal.entry(2).fields[COUNTER] = Vec::new();
        journal.entry(2).signature = signature(0);
    });
}
