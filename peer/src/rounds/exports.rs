//! What a round does with the export for an inspector (request E2), with an element for each pair (request E5), and with its
//! reader.

use super::pairs::Design;
use super::{Accepted, Round};
use crate::calls::{Exported, TakenOver};
use crate::compare::{Compared, demand};
use crate::layout::STATE;
use crate::model::{
    CHAIN, COUNTER, Element, Entry, Export, FIRST_AMOUNT, Journal, NUMBER, SERIAL, group_bytes, padded_text,
    pair_places, url_text,
};
use crate::receipt::{FAILURE, Kind};
use crate::register::SERIALS;
use crate::sample;
use crate::settings::Settings;

/// A journal with its certificates, and its export in parts.
#[derive(Clone)]
struct Inspected {
    settings: Settings,
    journal: Journal,
    groups: Vec<Vec<Vec<u8>>>,
    export: Export,
}

impl Inspected {
    fn width(&self) -> usize {
        self.settings.width as usize
    }

    fn pairs(&self) -> usize {
        self.journal.pairs.len()
    }

    /// All receipts.
    fn receipts(&self) -> usize {
        self.journal.entries().len()
    }

    fn certificates(&self) -> Vec<u8> {
        self.groups.iter().flat_map(|group| group_bytes(group)).collect()
    }

    fn text(&self) -> Vec<u8> {
        self.export.text()
    }

    /// The text with another spelling of this receipt.
    fn with_receipt(&self, element: usize, receipt: usize, spelled: Vec<u8>) -> Vec<u8> {
        let mut export = self.export.clone();
        export.elements[element].receipts[receipt] = spelled;
        export.text()
    }

    /// The text after a change of one element.
    fn with_element(&self, element: usize, change: impl FnOnce(&mut Element)) -> Vec<u8> {
        let mut export = self.export.clone();
        change(&mut export.elements[element]);
        export.text()
    }
}

/// A journal with one thing wrong, with the number and the index that Take over has for it.
struct Wrong {
    inspected: Inspected,
    number: u32,
    index: usize,
}

/// The numbers of Take over that a text can get, but for 4.
const SPELLED_WRONG: [u32; 7] = [16, 17, 18, 19, 20, 30, 31];

/// Every order of the three names.
const ORDERS: [[usize; 3]; 6] = [[0, 1, 2], [0, 2, 1], [1, 0, 2], [1, 2, 0], [2, 0, 1], [2, 1, 0]];

/// The questions of Read export, in their order: a shape, an element without receipts, a first receipt, room, width, and
/// the rest of Take over.
#[derive(Clone, Copy, PartialEq)]
enum Question {
    StateLength,
    Shape,
    Empty,
    First,
    Room,
    Width,
    Journal,
}

const QUESTIONS: [Question; 7] = [
    Question::StateLength,
    Question::Shape,
    Question::Empty,
    Question::First,
    Question::Room,
    Question::Width,
    Question::Journal,
];

/// Texts that stand for no "=", though some of them do in JSON.
const OTHER_ESCAPES: [&[u8]; 17] = [
    b"\\u003D",
    b"\\U003d",
    b"\\u003c",
    b"\\u003e",
    b"\\u03d",
    b"\\u0003d",
    b"\\u0041",
    b"\\x3d",
    b"\\=",
    b"\\\"",
    b"\\\\",
    b"\\/",
    b"\\n",
    b"\\t",
    b"\\u003\"",
    b"\\",
    b"\\u003d\\u003D",
];

/// "=" as the escape.
const ESCAPE: &[u8] = b"\\u003d";

fn escaped(string: &[u8]) -> Vec<u8> {
    string.iter().flat_map(|&byte| if byte == b'=' { ESCAPE.to_vec() } else { vec![byte] }).collect()
}

/// The text with the first place of a part changed.
fn replaced(text: &[u8], part: &[u8], other: &[u8]) -> Vec<u8> {
    let place = text.windows(part.len()).position(|window| window == part).expect("a part of the text");
    [&text[..place], other, &text[place + part.len()..]].concat()
}

impl Round<'_> {
    // ---- certificates and journals

    /// The certificates of a pair.
    fn group(&self) -> Vec<Vec<u8>> {
        let number = self.random.pick(&[1, 1, 2, 3]);
        let certificate = |_| {
            let length = self.random.pick(&[0, 1, 2, 3, 4, self.random.below(60)]);
            self.garbage(length)
        };
        (0..number).map(certificate).collect()
    }

    /// A design with certificates, and its export.
    fn inspected_design(&self, design: Design) -> Inspected {
        let groups: Vec<_> = design.journal.pairs.iter().map(|_| self.group()).collect();
        let export = Export::with(&design.journal, &groups);
        Inspected { settings: design.settings, journal: design.journal, groups, export }
    }

    /// A valid journal with so many receipts in its pairs.
    fn inspected(&self, receipts: &[usize]) -> Inspected {
        self.inspected_design(self.designed(receipts))
    }

    /// A valid journal of at least so many pairs, each with a receipt or two.
    fn readable(&self, least: usize) -> Inspected {
        let pairs = self.random.pick(&[least, least, least + 1, least + self.random.below(SERIALS + 1 - least)]);
        let receipts: Vec<usize> = (0..pairs).map(|_| 1 + self.random.below(2)).collect();
        self.inspected(&receipts)
    }

    /// A journal with one thing wrong, all its pairs with a receipt.
    fn wrong(&self, number: u32) -> Wrong {
        let pairs = if number == 31 { SERIALS + 1 } else { 2 + self.random.below(3) };
        let receipts: Vec<usize> = (0..pairs).map(|_| 1 + self.random.below(2)).collect();
        let mut design = self.designed(&receipts);
        let place = self.random.below(design.receipts());
        let later = place.max(1);
        let (journal, settings) = (&mut design.journal, &design.settings);
        let index = match number {
            16 => {
                journal.entry(place).fields[3][10] = b'D';
                place
            }
            17 => {
                journal.entry(later).fields[NUMBER] = journal.entry(later - 1).fields[NUMBER].clone();
                journal.all_right(later, settings);
                later
            }
            18 => {
                match self.random.below(2) {
                    0 => journal.entry(0).fields[COUNTER] = b"VFJB".to_vec(),
                    _ => journal.entry(0).fields[FIRST_AMOUNT] = b"0,01".to_vec(),
                }
                journal.all_right(0, settings);
                0
            }
            19 => {
                journal.entry(place).fields[CHAIN] = padded_text(&self.garbage(8));
                journal.chain_right(place + 1);
                place
            }
            20 => {
                let place = if journal.entry(place).kind() == Kind::Standard { place } else { 0 };
                let letter = &mut journal.entry(place).fields[COUNTER][0];
                *letter = if *letter == b'A' { b'B' } else { b'A' };
                journal.chain_right(place + 1);
                place
            }
            30 => {
                let pair = 1 + self.random.below(pairs - 1);
                let used = journal.pairs[self.random.below(pair)].serial.clone();
                journal.pairs[pair].entries.iter_mut().for_each(|entry| entry.fields[SERIAL] = used.clone());
                journal.pairs[pair].serial = used;
                let index = journal.before(pair);
                journal.all_right(index, settings);
                index
            }
            31 => journal.before(SERIALS),
            other => panic!("no text gets {other} from Take over"),
        };
        Wrong { inspected: self.inspected_design(design), number, index }
    }

    // ---- the writer

    fn export(
        &mut self,
        inspected: &Inspected,
        journal: &[u8],
        certificates: &[u8],
        room: usize,
    ) -> Compared<(Exported, Vec<u8>)> {
        let mut output = if room > 10_000 { vec![0x5a; room] } else { self.garbage(room) };
        let (key, width) = (inspected.settings.key, inspected.width());
        let exported = self.compare.export(journal, &key, width, certificates, &mut output)?;
        output.truncate(exported.length);
        Ok((exported, output))
    }

    /// Valid journals with their certificates: the text is that of the parts, and reads back.
    pub(super) fn exports_by_design(&mut self) -> Compared<()> {
        let pairs = self.random.pick(&[1, 2, SERIALS, 1 + self.random.below(SERIALS)]);
        let receipts = self.some_receipts(pairs);
        let inspected = self.inspected(&receipts);
        self.written_and_read(&inspected)?;
        self.other_groups(&inspected)?;
        let inspected = self.readable(1);
        self.written_and_read(&inspected)
    }

    fn written_and_read(&mut self, inspected: &Inspected) -> Compared<()> {
        let (journal, certificates, text) = (inspected.journal.bytes(), inspected.certificates(), inspected.text());
        let needed = text.len();
        for room in [needed, needed + 1 + self.random.below(40)] {
            let (exported, output) = self.export(inspected, &journal, &certificates, room)?;
            let answer = Exported { number: 0, index: 0, length: needed };
            demand(exported == answer && output == text, "an export is the text of the request", &journal)?;
        }
        for room in [needed - 1, 0, self.random.below(needed)] {
            let (exported, _) = self.export(inspected, &journal, &certificates, room)?;
            demand(exported == Exported::refused(23, 0), "an output that is too short gets 23", &journal)?;
        }
        if inspected.export.elements.iter().any(|element| element.receipts.is_empty()) {
            return self.refused_with(inspected, &text, 29, 0, "an element without receipts gets 29");
        }
        self.reads_back(inspected, &text)
    }

    /// Certificates that are not one group for each pair.
    fn other_groups(&mut self, inspected: &Inspected) -> Compared<()> {
        let journal = inspected.journal.bytes();
        let groups: Vec<Vec<u8>> = inspected.groups.iter().map(|group| group_bytes(group)).collect();
        let all = groups.concat();
        let which = self.random.below(groups.len());
        let with = |bytes: &[u8]| {
            let mut groups = groups.clone();
            groups[which] = bytes.to_vec();
            groups.concat()
        };
        let longest = [2, 0, 1, b'a', 0, 0];
        let mut cases = vec![
            Vec::new(),
            vec![0],
            vec![0; groups.len()],
            [&all[..], &[0]].concat(),
            [&all[..], &[1]].concat(),
            [&all[..], &[1, 0, 0]].concat(),
            [&all[..], &groups[which]].concat(),
            with(&[]),
            with(&[0]),
            with(&[0, 0, 0]),
            [&[0], &all[..]].concat(),
            all[..all.len() - 1].to_vec(),
            all[..self.random.below(all.len())].to_vec(),
        ];
        // the last group cut at every byte of two certificates
        let before = groups[..groups.len() - 1].concat();
        cases.extend((0..longest.len()).map(|cut| [&before[..], &longest[..cut]].concat()));
        for certificates in cases {
            let room = self.random.pick(&[0, inspected.text().len() + 1000]);
            let (exported, _) = self.export(inspected, &journal, &certificates, room)?;
            let refused = Exported::refused(28, 0);
            demand(exported == refused, "certificates are one group for each pair, or get 28", &certificates)?;
        }
        for _ in 0..4 {
            let mut certificates = all.clone();
            self.damage_bytes(&mut certificates);
            self.export(inspected, &journal, &certificates, inspected.text().len() + 300)?;
        }
        Ok(())
    }

    /// Journals with one thing wrong, and other certificates or too short an output: Take over decides, then the certificates.
    pub(super) fn exports_refused(&mut self) -> Compared<()> {
        for number in SPELLED_WRONG {
            let Wrong { inspected, number, index } = self.wrong(number);
            self.export_refused(&inspected, &inspected.journal.bytes(), number, index)?;
        }
        let receipts = self.some_receipts(3);
        let inspected = self.inspected(&receipts);
        let journal = inspected.journal.bytes();
        let head = pair_places(&journal)[0].count + 4;
        let cut = self.random.below(head);
        self.export_refused(&inspected, &journal[..cut], 14, 0)?;
        let after = [&journal[..], &self.garbage(3)].concat();
        self.export_refused(&inspected, &after, 21, inspected.receipts())?;
        let inspected = self.readable(1);
        let journal = inspected.journal.bytes();
        self.export_refused(&inspected, &journal[..journal.len() - 1], 15, inspected.receipts() - 1)?;

        // 4 for the width and for the key, before all else
        let (certificates, text) = (inspected.certificates(), inspected.text());
        let key = inspected.settings.key;
        let wrong = self.random.pick(&[0, 1, 31, 33]);
        let refused = Exported::refused(4, 0);
        for (key, width) in [(&key[..], sample::bad_width(&self.random) as usize), (&vec![9; wrong], inspected.width())]
        {
            for (journal, certificates, room) in
                [(&journal[..], &certificates[..], text.len()), (&journal[1..], &certificates[1..], 0)]
            {
                let mut output = self.garbage(room);
                let exported = self.compare.export(journal, key, width, certificates, &mut output)?;
                demand(exported == refused, "an export asks 4 first", journal)?;
            }
        }
        // another key: the counter of the start receipt
        let mut other = key;
        other[self.random.below(32)] ^= 1 << self.random.below(8);
        let mut output = self.garbage(text.len());
        let exported = self.compare.export(&journal, &other, inspected.width(), &certificates, &mut output)?;
        demand(exported == Exported::refused(20, 0), "an export under another key gets 20", &journal)
    }

    fn export_refused(&mut self, inspected: &Inspected, journal: &[u8], number: u32, index: usize) -> Compared<()> {
        let certificates = inspected.certificates();
        let room = inspected.text().len() + 500;
        for (certificates, room) in
            [(&certificates[..], room), (&certificates[1..], room), (&certificates, 0), (b"", 0)]
        {
            let (exported, _) = self.export(inspected, journal, certificates, room)?;
            let refused = Exported::refused(number, index as u32);
            demand(exported == refused, "an export passes on number and index of Take over", journal)?;
        }
        Ok(())
    }

    /// The journal of a list of calls, and damaged ones: exported as Take over answers, and their texts read.
    pub(super) fn exports_of(&mut self, accepted: &Accepted) -> Compared<()> {
        self.exported_as_taken(accepted, &accepted.journal)?;
        for _ in 0..6 {
            let journal = self.damaged_journal(accepted);
            self.exported_as_taken(accepted, &journal)?;
        }
        for _ in 0..6 {
            let journal = self.rebuilt_journal(accepted);
            self.exported_as_taken(accepted, &journal.bytes())?;
            self.read_of_parts(accepted, &journal)?;
        }
        Ok(())
    }

    /// Export with a right number of groups, or with another, answers as Take over does, up to its own questions.
    fn exported_as_taken(&mut self, accepted: &Accepted, journal: &[u8]) -> Compared<()> {
        let (key, width) = (accepted.settings.key, accepted.width());
        let taken = self.compare.take_over(journal, &key, width, &mut [0x5a; STATE])?;
        let right = if taken == TakenOver::DONE { pair_places(journal).len() } else { 1 };
        let groups = self.random.pick(&[right, right, right, right + 1, right - 1]);
        let certificates: Vec<u8> = (0..groups).flat_map(|_| group_bytes(&self.group())).collect();
        let room = self.random.pick(&[0, 40, 2 * journal.len() + 4000]);
        let mut output = self.garbage(room);
        let exported = self.compare.export(journal, &key, width, &certificates, &mut output)?;
        let expected = match taken.number {
            0 if groups != right => Exported::refused(28, 0),
            0 if room <= 40 => Exported::refused(23, 0),
            0 => Exported { number: 0, index: 0, length: exported.length },
            number => Exported::refused(number, taken.index),
        };
        demand(exported == expected, "an export answers as Take over does, then 28, then 23", journal)
    }

    /// The text of any parts.
    fn read_of_parts(&mut self, accepted: &Accepted, journal: &Journal) -> Compared<()> {
        let groups: Vec<_> = journal.pairs.iter().map(|_| self.group()).collect();
        let text = Export::with(journal, &groups).text();
        self.read_text(&text, &accepted.settings.key, accepted.width())?;
        Ok(())
    }

    // ---- the reader

    /// Read export into an output as long as the text, which is always enough: the answer, the journal and the state. What is
    /// accepted is a journal that Take over accepts with the same state, and goes to outputs of other lengths, too.
    fn read_text(&mut self, text: &[u8], key: &[u8], width: usize) -> Compared<(Exported, Vec<u8>, Vec<u8>)> {
        let (mut journal, mut state) = (vec![0x5a; text.len()], self.garbage(STATE));
        let read = self.compare.read_export(text, key, width, &mut journal, &mut state)?;
        demand(read.number != 23, "an output as long as the text is enough", text)?;
        journal.truncate(read.length);
        if read.number == 0 {
            let mut taken = self.garbage(STATE);
            let answer = self.compare.take_over(&journal, key, width, &mut taken)?;
            demand(answer == TakenOver::DONE && taken == state, "the journal of a text is accepted", text)?;
        }
        if read.number == 0 && self.random.once_in(3) {
            let length = read.length;
            for room in [length, length - 1, length + 1 + self.random.below(40), 0, self.random.below(length)] {
                let mut output = vec![0xa5; room];
                let mut state = self.garbage(STATE);
                let again = self.compare.read_export(text, key, width, &mut output, &mut state)?;
                let expected = if room < length { Exported::refused(23, 0) } else { read };
                demand(again == expected, "an output that is too short gets 23", text)?;
            }
        }
        Ok((read, journal, state))
    }

    /// The text gets this number and index.
    fn refused_with(
        &mut self,
        inspected: &Inspected,
        text: &[u8],
        number: u32,
        index: usize,
        what: &str,
    ) -> Compared<()> {
        let (read, _, _) = self.read_text(text, &inspected.settings.key, inspected.width())?;
        demand((read.number, read.index) == (number, index as u32), what, text)
    }

    /// The text gives the journal.
    fn reads_back(&mut self, inspected: &Inspected, text: &[u8]) -> Compared<()> {
        let (read, journal, _) = self.read_text(text, &inspected.settings.key, inspected.width())?;
        let bytes = inspected.journal.bytes();
        let answer = Exported { number: 0, index: 0, length: bytes.len() };
        demand(read == answer && journal == bytes, "an export reads back to its journal", text)
    }

    /// None, one or some of the four blanks.
    fn blanks(&self) -> Vec<u8> {
        let number = self.random.pick(&[0, 0, 1, 1, 2, 5]);
        (0..number).map(|_| self.random.pick(b" \t\n\r")).collect()
    }

    /// Another spelling of the same text: blanks, order of names, escapes.
    fn respelled_text(&self, export: &Export) -> Vec<u8> {
        let mut export = export.clone();
        for element in &mut export.elements {
            element.order = self.random.pick(&ORDERS);
            for string in std::iter::once(&mut element.certificate).chain(&mut element.issuers) {
                if self.random.once_in(2) {
                    *string = escaped(string);
                } else if let Some(place) = string.iter().position(|&byte| byte == b'=') {
                    // one of two
                    string.splice(place..place + 1, ESCAPE.iter().copied());
                }
            }
        }
        let mut text = Vec::new();
        for token in export.tokens() {
            text.extend(self.blanks());
            text.extend(token);
        }
        text.extend(self.blanks());
        text
    }

    /// Texts that are accepted in any spelling, and texts that Take over refuses.
    pub(super) fn texts_read(&mut self) -> Compared<()> {
        let inspected = self.readable(1);
        for _ in 0..4 {
            let text = self.respelled_text(&inspected.export);
            self.reads_back(&inspected, &text)?;
        }
        for order in ORDERS {
            let text = inspected.with_element(self.random.below(inspected.pairs()), |element| element.order = order);
            self.reads_back(&inspected, &text)?;
        }
        self.under_other_keys(&inspected)?;
        for number in SPELLED_WRONG {
            let Wrong { inspected, number, index } = self.wrong(number);
            let text = self.respelled_text(&inspected.export);
            self.refused_with(&inspected, &text, number, index, "a text passes on number and index of Take over")?;
            self.room_of_a_refused_text(&inspected, &text, number, index)?;
        }
        self.many_elements()?;
        self.other_certificates()?;
        self.first_receipts()?;
        self.other_registers()?;
        self.moved_elements()?;
        self.moved_receipts()
    }

    /// A text that Take over refuses, into an output that has just room for its journal, and into one that is a byte shorter.
    fn room_of_a_refused_text(
        &mut self,
        inspected: &Inspected,
        text: &[u8],
        number: u32,
        index: usize,
    ) -> Compared<()> {
        let needed = inspected.journal.bytes().len();
        let refused = Exported::refused(number, index as u32);
        for (room, expected) in [(needed, refused), (needed - 1, Exported::refused(23, 0))] {
            let (mut output, mut state) = (self.garbage(room), self.garbage(STATE));
            let (key, width) = (inspected.settings.key, inspected.width());
            let read = self.compare.read_export(text, &key, width, &mut output, &mut state)?;
            demand(read == expected, "room is asked for the whole journal, before Take over", text)?;
        }
        Ok(())
    }

    /// More elements than a register has serials: all of them are asked before Take over, and count for the room.
    fn many_elements(&mut self) -> Compared<()> {
        let pairs = self.random.pick(&[SERIALS + 1, SERIALS + 2, 12, 12, 40]);
        let inspected = self.inspected(&vec![1; pairs]);
        let text = inspected.text();
        self.refused_with(&inspected, &text, 31, SERIALS, "a ninth element gets 31")?;
        self.room_of_a_refused_text(&inspected, &text, 31, SERIALS)?;
        let which = self.random.between(SERIALS as i64, pairs as i64 - 1) as usize;
        let text = inspected.with_element(which, |element| element.receipts.clear());
        self.refused_with(&inspected, &text, 29, 0, "29 is asked of every element")?;
        let text = inspected.with_receipt(which, 0, b"eyJhbGciOiJFUzI1NiJ9.X1IxLUFUMF8.".to_vec());
        self.refused_with(&inspected, &text, 28, 0, "first receipts are asked of every element")?;
        let text = inspected.with_element(which, |element| element.issuers.push(b"AR==".to_vec()));
        self.refused_with(&inspected, &text, 28, 0, "certificates are asked in every element")?;
        let mut entry = inspected.journal.pairs[SERIALS].entries[0].clone();
        entry.fields[SERIAL] = inspected.journal.pairs[self.random.below(SERIALS)].serial.clone();
        let text = inspected.with_receipt(SERIALS, 0, entry.form());
        self.refused_with(&inspected, &text, 30, SERIALS, "a ninth element with a used serial gets 30")
    }

    /// A text under another key or width, or such that there are none.
    fn under_other_keys(&mut self, inspected: &Inspected) -> Compared<()> {
        let (text, key, width) = (inspected.text(), inspected.settings.key, inspected.width());
        let (read, ..) = self.read_text(&text, &key, sample::bad_width(&self.random) as usize)?;
        demand(read == Exported::refused(4, 0), "a bad width gets 4", &text)?;
        let wrong = self.random.pick(&[0, 1, 31, 33, 64]);
        let (read, ..) = self.read_text(&text, &vec![9; wrong], width)?;
        demand(read == Exported::refused(4, 0), "a key of another length gets 4", &text)?;
        let other_width = 5 + (width - 4 + self.random.below(3)) % 4;
        let (read, ..) = self.read_text(&text, &key, other_width)?;
        demand(read == Exported::refused(16, 0), "another width gets 16", &text)?;
        let mut other = key;
        other[self.random.below(32)] ^= 1 << self.random.below(8);
        let (read, ..) = self.read_text(&text, &other, width)?;
        demand(read == Exported::refused(20, 0), "another key gets 20", &text)
    }

    /// The spelling of a certificate: canonical BASE64 after its escapes are read, and nothing else.
    fn other_certificates(&mut self) -> Compared<()> {
        let inspected = self.readable(1);
        let one: [&[u8]; 5] = [b"", b"AQ==", b"AQI=", b"AQID", b"+/+/"];
        let good = one.into_iter().map(|text| (text.to_vec(), true));
        let escapes: [&[u8]; 5] =
            [b"AQ\\u003d\\u003d", b"AQ\\u003d=", b"AQ=\\u003d", b"AQI\\u003d", b"AQIDBA\\u003d\\u003d"];
        let escapes = escapes.into_iter().map(|text| (text.to_vec(), true));
        let wrong: [&[u8]; 28] = [
            b"AQ",
            b"AQI",
            b"AQ=",
            b"AQ\\u003d",
            b"AQ===",
            b"AQI==",
            b"AQID=",
            b"AQID====",
            b"AR==",
            b"AX==",
            b"A/==",
            b"AQJ=",
            b"AQL=",
            b"A===",
            b"A",
            b"=",
            b"==",
            b"====",
            b"\\u003d",
            b"-_-_",
            b"AQ==AQID",
            b"AQ I",
            b" AQID",
            b"AQID ",
            b"AQ.D",
            b"AQI\\u003D",
            b"AQ\\u003d\\u003dAQID",
            b"AQ\\u003dI",
        ];
        let wrong = wrong.into_iter().map(|text| (text.to_vec(), false));
        for (spelled, canonical) in good.chain(escapes).chain(wrong) {
            let which = self.random.below(inspected.pairs());
            let place = self.random.below(3);
            let text = inspected.with_element(which, |element| match place {
                0 => element.certificate = spelled.clone(),
                1 => element.issuers.push(spelled.clone()),
                _ => element.issuers.insert(0, spelled.clone()),
            });
            if canonical {
                self.reads_back(&inspected, &text)?;
            } else {
                self.refused_with(&inspected, &text, 28, 0, "a certificate that is not canonical gets 28")?;
            }
        }
        for _ in 0..6 {
            let mut letters = self.letters();
            if self.random.once_in(2) {
                letters = padded_text(&self.garbage(1 + self.random.below(9)));
                self.respell_base64(&mut letters);
            }
            let text = inspected.with_element(0, |element| element.certificate = letters);
            self.read_text(&text, &inspected.settings.key, inspected.width())?;
        }
        Ok(())
    }

    // ---- first receipts

    /// The first receipt of an element with one thing wrong: 28 for what its rule names, and 16 for all else.
    fn first_receipts(&mut self) -> Compared<()> {
        let inspected = self.readable(1);
        let which = self.random.pick(&[0, inspected.pairs() - 1]);
        let index = inspected.journal.before(which);
        let entry = &inspected.journal.pairs[which].entries[0];
        for spelled in self.no_first_receipts(entry) {
            let text = inspected.with_receipt(which, 0, spelled);
            self.refused_with(&inspected, &text, 28, 0, "a first receipt that breaks its rule gets 28")?;
        }
        for spelled in self.misspelled_first_receipts(entry) {
            let text = inspected.with_receipt(which, 0, spelled);
            self.refused_with(&inspected, &text, 16, index, "a first receipt is else asked by Take over")?;
        }
        Ok(())
    }

    /// Spellings that the rule for a first receipt refuses.
    fn no_first_receipts(&self, entry: &Entry) -> Vec<Vec<u8>> {
        let mut spelled = Vec::new();
        let mut add = |change: &dyn Fn(&mut Entry)| {
            let mut other = entry.clone();
            change(&mut other);
            spelled.push(other.form());
        };
        // eleven fields and thirteen
        let place = self.random.below(12);
        add(&|entry| drop(entry.fields.remove(place)));
        add(&|entry| drop(entry.fields.remove(11)));
        add(&|entry| entry.fields.truncate(1));
        add(&|entry| entry.fields.push(Vec::new()));
        add(&|entry| entry.fields.push(b"0".to_vec()));
        add(&|entry| entry.fields.insert(place, b"0".to_vec()));
        for lead in [&b""[..], b"__", b" _", b"-"] {
            add(&|entry| entry.lead = lead.to_vec());
        }
        for first in
            [&b"R1-"[..], b"R2-AT0", b"r1-AT0", b"R1-at0", b"R1-AT", b"R1-AT00", b"R1-ATA", b"AT0", b"R1AT0", b""]
        {
            add(&|entry| entry.fields[0] = first.to_vec());
        }
        let csp = [b"R1-", &sample::bad_csp(&self.random)[..]].concat();
        // the separator would make it thirteen
        add(&|entry| entry.fields[0] = csp.clone());
        let mut id = sample::id(&self.random);
        let foreign = self.random.below(id.len());
        id[foreign] = sample::no_id_byte(&self.random);
        for id in [&id[..], b"", &[b'~'; 33], &[b'a'; 300], b"A B", b"\x7f"] {
            add(&|entry| entry.fields[1] = id.to_vec());
        }
        let mut serial = sample::serial(&self.random);
        let foreign = self.random.below(serial.len());
        serial[foreign] = sample::no_serial_byte(&self.random);
        for serial in [&serial[..], b"", &[b'a'; 33], b"AB", b"0x1", b"g"] {
            add(&|entry| entry.fields[SERIAL] = serial.to_vec());
        }
        // a long payload, which has one field more or ends badly
        let digits = vec![b'1'; 250 + self.random.below(3)];
        add(&|entry| {
            entry.fields[NUMBER] = digits.clone();
            entry.fields.push(Vec::new());
        });
        add(&|entry| {
            entry.fields[NUMBER] = digits.clone();
            entry.fields[SERIAL] = b"2A".to_vec();
        });
        // not three elements, or another middle one
        let [header, payload, signature] =
            [entry.header.clone(), url_text(&entry.payload()), url_text(&entry.signature)];
        let join = |parts: &[&[u8]]| parts.join(&b'.');
        let mut one_more = entry.clone();
        while one_more.payload().len() % 3 == 0 {
            one_more.fields[NUMBER].push(b'0');
        }
        let mut stray = url_text(&one_more.payload());
        *stray.last_mut().expect("letters") += 1;
        let mut long = one_more;
        long.fields[CHAIN].resize(300, b'A');
        while long.payload().len() % 3 == 0 {
            long.fields[CHAIN].push(b'A');
        }
        let mut long = url_text(&long.payload());
        let place = long.len() - 1 - self.random.below(3) * 50;
        long[place] = self.random.pick(b"+/=~ ");
        let whole = if payload.len() % 4 == 0 { payload.clone() } else { b"".to_vec() };
        let mut foreign = payload.clone();
        let place = self.random.below(payload.len());
        foreign[place] = self.random.pick(b"+/ ~=,*");
        spelled.extend([
            Vec::new(),
            b".".to_vec(),
            b"..".to_vec(),
            b"...".to_vec(),
            payload.clone(),
            join(&[&header, &payload]),
            join(&[&payload, &signature]),
            join(&[&header, &payload, &signature, b""]),
            join(&[b"", &header, &payload, &signature]),
            join(&[&header, b"", &payload, &signature]),
            join(&[&header, b"", &signature]),
            join(&[&header, &signature, &payload]),
            join(&[&header, &stray, &signature]),
            join(&[&header, &long, &signature]),
            join(&[&header, &[&payload[..], b"="].concat(), &signature]),
            join(&[&header, &[&payload[..], b"\\u003d"].concat(), &signature]),
            join(&[&header, &[&payload[..], b" "].concat(), &signature]),
            join(&[&header, &[&whole[..], b"A"].concat(), &signature]),
            join(&[&header, &padded_text(&[b"?", &entry.payload()[..]].concat()), &signature]),
            join(&[&header, &entry.payload(), &signature]),
            join(&[&header, &foreign, &signature]),
        ]);
        spelled
    }

    /// Spellings that the rule for a first receipt lets through, and Take over does not.
    fn misspelled_first_receipts(&self, entry: &Entry) -> Vec<Vec<u8>> {
        let mut spelled = Vec::new();
        let mut add = |change: &dyn Fn(&mut Entry)| {
            let mut other = entry.clone();
            change(&mut other);
            spelled.push(other.form());
        };
        for header in [&b""[..], b"x", b"=", ESCAPE, b"eyJhbGciOiJFUzI1NiJ8", b"{} ,:[]"] {
            add(&|entry| entry.header = header.to_vec());
        }
        let length = self.random.pick(&[0, 1, 33, 63, 65, 300]);
        let signature = self.garbage(length);
        add(&|entry| entry.signature = signature.clone());
        add(&|entry| entry.signature = b"safety device failure".to_vec());
        for field in [NUMBER, 3, FIRST_AMOUNT + self.random.below(5), COUNTER, CHAIN] {
            for text in [&b""[..], b"x", b"-", &[b'1'; 250], b"\xff\x00\"\\"] {
                add(&|entry| entry.fields[field] = text.to_vec());
            }
        }
        let [header, payload, signature] =
            [entry.header.clone(), url_text(&entry.payload()), url_text(&entry.signature)];
        let mut padded = signature.clone();
        padded.extend(self.random.pick(&[&b"="[..], ESCAPE, b" ", b"A~"]));
        spelled.push([&header[..], &payload, &padded].join(&b'.'));
        spelled.push([&header[..], &payload, b""].join(&b'.'));
        spelled.push([&b""[..], &payload, b""].join(&b'.'));
        spelled.push([&signature[..], &payload, &header].join(&b'.'));
        spelled
    }

    /// Another CSP, ID or serial in a first receipt or in a whole element.
    fn other_registers(&mut self) -> Compared<()> {
        let inspected = self.readable(2);
        let (csp, id) = (&inspected.journal.csp, &inspected.journal.id);
        let digit = if csp[2] == b'9' { b'0' } else { csp[2] + 1 };
        let other_csp = [b"R1-", &csp[..2], &[digit]].concat();
        let other_id = [&id[..id.len() - 1], if id.ends_with(b"A") { b"B" } else { b"A" }].concat();
        let fields = [(0, &other_csp), (1, &other_id)];
        for which in 1..inspected.pairs() {
            let index = inspected.journal.before(which);
            for (field, other) in fields {
                let mut pair = inspected.journal.pairs[which].clone();
                let first = 1 + self.random.below(pair.entries.len());
                pair.entries[..first].iter_mut().for_each(|entry| entry.fields[field] = other.clone());
                let receipts = pair.entries.iter().map(Entry::form).collect();
                let text = inspected.with_element(which, |element| element.receipts = receipts);
                self.refused_with(&inspected, &text, 16, index, "another register in a later element gets 16")?;
            }
        }
        let mut entry = inspected.journal.pairs[0].entries[0].clone();
        entry.fields[0] = other_csp.clone();
        let text = inspected.with_receipt(0, 0, entry.form());
        self.refused_with(&inspected, &text, 16, 1, "the first receipt has the CSP of all")?;
        let mut entry = inspected.journal.pairs[0].entries[0].clone();
        entry.fields[1] = other_id;
        let text = inspected.with_receipt(0, 0, entry.form());
        self.refused_with(&inspected, &text, 19, 0, "the ID of the first receipt begins the chain")?;

        // another serial in the first receipt of an element
        let which = self.random.below(inspected.pairs());
        let serials: Vec<Vec<u8>> = inspected.journal.pairs.iter().map(|pair| pair.serial.clone()).collect();
        let entries = &inspected.journal.pairs[which].entries;
        let mut entry = entries[0].clone();
        entry.fields[SERIAL] = sample::next_serial(&self.random, &serials);
        let index = inspected.journal.before(which);
        let text = inspected.with_receipt(which, 0, entry.form());
        let (number, after) = match (entries.len(), index + 1 == inspected.receipts()) {
            (2.., _) => (16, index + 1),
            (_, true) => (0, 0),
            (_, false) => (19, index + 1),
        };
        self.refused_with(&inspected, &text, number, after, "a pair has the serial of its first receipt")?;
        let which = 1 + self.random.below(inspected.pairs() - 1);
        let mut entry = inspected.journal.pairs[which].entries[0].clone();
        entry.fields[SERIAL] = serials[self.random.below(which)].clone();
        let text = inspected.with_receipt(which, 0, entry.form());
        let index = inspected.journal.before(which);
        self.refused_with(&inspected, &text, 30, index, "a first receipt with a used serial gets 30")
    }

    // ---- elements and receipts in other places

    fn moved_elements(&mut self) -> Compared<()> {
        let inspected = self.readable(3);
        let pairs = inspected.pairs();
        let with = |elements: Vec<Element>| Export { elements }.text();
        let all = &inspected.export.elements;

        // without the last elements
        let left = 1 + self.random.below(pairs - 1);
        let (read, journal, _) =
            self.read_text(&with(all[..left].to_vec()), &inspected.settings.key, inspected.width())?;
        let end = pair_places(&inspected.journal.bytes())[left - 1].end;
        let same = journal == inspected.journal.bytes()[..end];
        demand(read.number == 0 && same, "an export without its last elements is read", &journal)?;
        // without another one
        let which = self.random.below(pairs - 1);
        let mut others = all.clone();
        others.remove(which);
        let (number, index) = if which == 0 { (18, 0) } else { (19, inspected.journal.before(which)) };
        self.refused_with(&inspected, &with(others), number, index, "an element left out")?;
        // twice
        let which = self.random.below(pairs);
        let mut others = all.clone();
        let place = self.random.between(which as i64 + 1, pairs as i64) as usize;
        others.insert(place, all[which].clone());
        let index = inspected.journal.before(place - 1) + inspected.journal.pairs[place - 1].entries.len();
        self.refused_with(&inspected, &with(others), 30, index, "an element twice gets 30")?;
        // in other places
        let first = self.random.below(pairs - 1);
        let second = first + 1 + self.random.below(pairs - 1 - first);
        let mut others = all.clone();
        others.swap(first, second);
        let (number, index) = if first == 0 { (18, 0) } else { (19, inspected.journal.before(first)) };
        self.refused_with(&inspected, &with(others), number, index, "elements that have changed places")?;
        let mut others = all.clone();
        others.reverse();
        self.refused_with(&inspected, &with(others), 18, 0, "elements backwards get 18")?;
        // certificates belong to no question of the journal
        let mut others = all.clone();
        others[first].certificate = all[second].certificate.clone();
        others[first].issuers = Vec::new();
        self.reads_back(&inspected, &with(others))
    }

    fn moved_receipts(&mut self) -> Compared<()> {
        let inspected = self.readable(2);
        let pairs = inspected.pairs();
        let which = self.random.below(pairs);
        let before = inspected.journal.before(which);
        let text = inspected.with_element(which, |element| element.receipts.clear());
        self.refused_with(&inspected, &text, 29, 0, "an element without receipts gets 29")?;

        let place = self.random.below(inspected.export.elements[which].receipts.len());
        let index = before + place;
        let text = inspected.with_element(which, |element| {
            let receipt = element.receipts[place].clone();
            element.receipts.insert(place, receipt);
        });
        self.refused_with(&inspected, &text, 17, index + 1, "a receipt twice gets 17")?;
        let empty = inspected.with_receipt(which, place, Vec::new());
        let (number, after) = if place == 0 { (28, 0) } else { (16, index) };
        self.refused_with(&inspected, &empty, number, after, "an empty receipt")?;
        let text = inspected.with_element(which, |element| drop(element.receipts.remove(place)));
        let (number, after) = match index {
            _ if inspected.export.elements[which].receipts.len() == 1 => (29, 0),
            _ if index + 1 == inspected.receipts() => (0, 0),
            0 => (18, 0),
            _ => (19, index),
        };
        self.refused_with(&inspected, &text, number, after, "a receipt left out")?;

        let inspected = self.inspected(&[2, 2, 1]);
        let mut on = inspected.export.clone();
        let receipt = on.elements[0].receipts.pop().expect("a receipt");
        on.elements[1].receipts.insert(0, receipt);
        self.refused_with(&inspected, &on.text(), 30, 1, "a receipt moved to the next element gets 30")?;
        let mut back = inspected.export.clone();
        let receipt = back.elements[1].receipts.remove(0);
        back.elements[0].receipts.push(receipt);
        self.refused_with(&inspected, &back.text(), 16, 2, "a receipt moved to the element before gets 16")
    }

    // ---- texts of another shape

    /// Texts of another shape, other strings, and each question of Read export together with each other one.
    pub(super) fn texts_refused(&mut self) -> Compared<()> {
        let inspected = self.readable(2);
        for text in self.other_shapes(&inspected) {
            self.refused_with(&inspected, &text, 28, 0, "a text of another shape gets 28")?;
        }
        self.other_marks(&inspected)?;
        self.other_strings(&inspected)?;
        self.every_byte_in_a_string()?;
        for _ in 0..8 {
            let text = self.damaged_text(&inspected.export);
            self.read_text(&text, &inspected.settings.key, inspected.width())?;
        }
        self.order_of_read_export()
    }

    fn other_shapes(&self, inspected: &Inspected) -> Vec<Vec<u8>> {
        let export = &inspected.export;
        let text = export.text();
        let (whole, which) = (text.len(), self.random.below(export.elements.len()));
        let element = &export.elements[which];
        let mut texts = vec![
            Vec::new(),
            b" ".to_vec(),
            b"{}".to_vec(),
            b"[]".to_vec(),
            b"null".to_vec(),
            b"{\"Belege-Gruppe\":[]}".to_vec(),
            b"{ \"Belege-Gruppe\" : [ ] } ".to_vec(),
            b"{\"Belege-Gruppe\":{}}".to_vec(),
            b"{\"Belege-Gruppe\":\"\"}".to_vec(),
            b"{\"Belege-Gruppe\":[{}]}".to_vec(),
            b"{\"Belege-Gruppe\":[[]]}".to_vec(),
            text[..self.random.below(whole)].to_vec(),
            text[1..].to_vec(),
            [&text[..], b"}"].concat(),
            [&text[..], b","].concat(),
            [&text[..], b"\0"].concat(),
            [&text[..], &text].concat(),
            [b"\xef\xbb\xbf", &text[..]].concat(),
            [b"[", &text[..], b"]"].concat(),
            // the outer name once more, and another one
            [&text[..whole - 1], b",", &text[1..]].concat(),
            [&text[..whole - 1], b",\"a\":\"\"}"].concat(),
            [b"{\"a\":[],", &text[1..]].concat(),
            [&text[..whole - 2], b",]}"].concat(),
            [&text[..whole - 2], b",{}]}"].concat(),
        ];
        // foreign blanks before, after and between
        let tokens = export.tokens();
        for blank in [&b"\x0b"[..], b"\x0c", b"\0", b"\xa0", b"\xc2\xa0", b"\x1f", b"\x08", b"/**/"] {
            let place = self.random.pick(&[0, tokens.len(), self.random.below(tokens.len())]);
            texts.push([&tokens[..place].concat()[..], blank, &tokens[place..].concat()].concat());
        }
        // other names
        for name in [&b"Belege-Gruppe"[..], b"Signaturzertifikat", b"Zertifizierungsstellen", b"Belege-kompakt"] {
            let (last, rest) = (&name[name.len() - 1..], &name[..name.len() - 1]);
            let mut others = vec![
                rest.to_vec(),
                name[1..].to_vec(),
                [name, b" "].concat(),
                [b" ", name].concat(),
                [name, b"\\u003d"].concat(),
                [name, b"="].concat(),
                [rest, &[last[0] ^ 0x20]].concat(),
                name.to_ascii_lowercase(),
                [rest, b"\\u00", format!("{:02x}", last[0]).as_bytes()].concat(),
                Vec::new(),
            ];
            let place = self.random.below(name.len());
            let mut changed = name.to_vec();
            changed[place] ^= 1;
            others.push(changed);
            for other in others {
                texts.push(self.with_a_name(&text, name, &other));
            }
        }
        // names missing, twice, and more of them
        let members: [&[usize]; 12] = [
            &[],
            &[0],
            &[2],
            &[0, 1],
            &[0, 2],
            &[1, 2],
            &[0, 1, 1],
            &[2, 2, 0],
            &[0, 1, 2, 0],
            &[0, 1, 2, 1],
            &[0, 1, 2, 2],
            &[2, 0, 0, 1],
        ];
        for members in members {
            let objects: Vec<Vec<u8>> = export
                .elements
                .iter()
                .enumerate()
                .map(|(place, one)| if place == which { one.object(members) } else { one.object(&one.order) }.concat())
                .collect();
            texts.push([b"{\"Belege-Gruppe\":[", &objects.join(&b',')[..], b"]}"].concat());
        }
        // values of another type
        let values: [&[u8]; 10] =
            [b"null", b"0", b"true", b"{}", b"\"\"", b"[]", b"[[]]", b"[null]", b"[\"\",]", b"[,]"];
        for which in 0..3 {
            for value in values {
                let good = if which == 0 { &b"\"\""[..] } else { b"[]" };
                // an issuer that is empty is a certificate, and no receipt is 29
                if value == good {
                    continue;
                }
                let member = element.member(which);
                let other = [&member[..2].concat()[..], value].concat();
                texts.push(replaced(&text, &member.concat(), &other));
            }
        }
        texts
    }

    /// A text with one of the places of a name changed.
    fn with_a_name(&self, text: &[u8], name: &[u8], other: &[u8]) -> Vec<u8> {
        let quoted = |name: &[u8]| [b"\"", name, b"\":"].concat();
        let (name, other) = (quoted(name), quoted(other));
        let places: Vec<usize> = (0..text.len()).filter(|&place| text[place..].starts_with(&name)).collect();
        let place = self.random.pick(&places);
        [&text[..place], &other, &text[place + name.len()..]].concat()
    }

    /// A mark left out, twice, or in place of another.
    fn other_marks(&mut self, inspected: &Inspected) -> Compared<()> {
        let tokens = inspected.export.tokens();
        let marks: Vec<usize> = (0..tokens.len()).filter(|&place| tokens[place].len() == 1).collect();
        for _ in 0..10 {
            let place = self.random.pick(&marks);
            let mut others = tokens.clone();
            match self.random.below(3) {
                0 => drop(others.remove(place)),
                1 => others.insert(place, tokens[place].clone()),
                _ => {
                    let mark = self.random.pick(b"{}[]:,");
                    others[place] = vec![if [mark] == tokens[place][..] { b';' } else { mark }];
                }
            }
            self.refused_with(inspected, &others.concat(), 28, 0, "another mark gets 28")?;
        }
        Ok(())
    }

    /// Escapes and bytes that no string has, in every kind of string.
    fn other_strings(&mut self, inspected: &Inspected) -> Compared<()> {
        let tokens = inspected.export.tokens();
        let strings: Vec<usize> = (0..tokens.len()).filter(|&place| tokens[place].len() > 1).collect();
        let bytes: [&[u8]; 9] = [b"\"", b"\0", b"\x09", b"\n", b"\r", b"\x1f", b"\x7f", b"\x80", b"\xc3\xa4"];
        for other in OTHER_ESCAPES.into_iter().chain(bytes) {
            let mut others = tokens.clone();
            let string = &mut others[self.random.pick(&strings)];
            let place = 1 + self.random.below(string.len() - 1);
            string.splice(place..place, other.iter().copied());
            self.refused_with(inspected, &others.concat(), 28, 0, "a string has bytes 32 to 126 and one escape")?;
        }
        Ok(())
    }

    /// Every second byte, and the escape, in a receipt, and some bytes in a certificate.
    fn every_byte_in_a_string(&mut self) -> Compared<()> {
        let inspected = self.inspected(&[2]);
        let receipt = &inspected.export.elements[0].receipts[1];
        let place = self.random.below(receipt.len() + 1);
        let half = self.random.below(2) as u8;
        for byte in (0..=255).filter(|byte| (31..=34).contains(byte) || byte % 2 == half) {
            let mut other = receipt.clone();
            other.insert(place, byte);
            let text = inspected.with_receipt(0, 1, other);
            let plain = (32..=126).contains(&byte) && byte != b'"' && byte != b'\\';
            let (number, index) = if plain { (16, 1) } else { (28, 0) };
            self.refused_with(&inspected, &text, number, index, "a byte in a receipt")?;
        }
        let mut other = receipt.clone();
        other.splice(place..place, ESCAPE.iter().copied());
        let text = inspected.with_receipt(0, 1, other);
        self.refused_with(&inspected, &text, 16, 1, "an escape in a receipt gets 16")?;
        let certificate = padded_text(&self.garbage(12));
        let place = self.random.below(certificate.len());
        for _ in 0..24 {
            let byte = self.random.byte();
            let mut other = certificate.clone();
            other[place] = byte;
            let text = inspected.with_element(0, |element| element.certificate = other);
            let letter = byte.is_ascii_alphanumeric() || b"+/".contains(&byte);
            let padding = byte == b'=' && place == 15 && b"AEIMQUYcgkosw048".contains(&certificate[14]);
            let number = if letter || padding { 0 } else { 28 };
            self.refused_with(&inspected, &text, number, 0, "a byte in a certificate")?;
        }
        Ok(())
    }

    /// A text with marks and strings moved, or some bytes changed.
    fn damaged_text(&self, export: &Export) -> Vec<u8> {
        let mut tokens = export.tokens();
        for _ in 0..self.random.below(3) {
            let (place, other) = (self.random.below(tokens.len()), self.random.below(tokens.len()));
            match self.random.below(4) {
                0 => drop(tokens.remove(place)),
                1 => tokens.insert(place, tokens[other].clone()),
                2 => tokens.swap(place, other),
                _ => tokens[place] = tokens[other].clone(),
            }
        }
        let mut text = tokens.concat();
        for _ in 0..self.random.below(3) {
            if text.is_empty() {
                break;
            }
            let place = self.random.below(text.len());
            match self.random.below(4) {
                0 => text[place] = self.random.pick(b"\"\\{}[]:, \n=.u03dDA_"),
                1 => text.insert(place, self.random.pick(b"\"\\{}[]:, \t\n\r=.u03dDA_")),
                2 => drop(text.remove(place)),
                _ => self.damage_bytes(&mut text),
            }
        }
        text
    }

    /// Each question answered by "no" together with each other one: the first decides, though the other one's element stands
    /// before.
    fn order_of_read_export(&mut self) -> Compared<()> {
        for (place, &first) in QUESTIONS.iter().enumerate() {
            for &other in &QUESTIONS[place..] {
                self.read_refused_by([first, other])?;
            }
        }
        Ok(())
    }

    fn read_refused_by(&mut self, wrong: [Question; 2]) -> Compared<()> {
        let journal = self.random.pick(&[16, 17, 18, 19, 20, 30]);
        let Wrong { mut inspected, number, index } = if wrong.contains(&Question::Journal) {
            self.wrong(journal)
        } else {
            Wrong { inspected: self.readable(2), number: 0, index: 0 }
        };
        let last = inspected.pairs() - 1;
        let elements = &mut inspected.export.elements;
        let key = inspected.settings.key;
        let (mut room, mut length) = (100_000, STATE);
        let (mut key, mut width) = (key.to_vec(), inspected.settings.width as usize);
        let mut after: &[u8] = b"";
        // the first question in the last element, the other in the first one
        for (&question, element) in wrong.iter().zip([last, 0]) {
            let element = &mut elements[element];
            match question {
                Question::StateLength => length = self.random.pick(&[0, 1, STATE - 1, STATE + 1, 2 * STATE]),
                Question::Shape => match self.random.below(5) {
                    0 => element.certificate = b"AR==".to_vec(),
                    1 => element.issuers.push(b"A".to_vec()),
                    2 => element.receipts.push(vec![b'a'; 65_536]),
                    3 => element.receipts.push(b"\\u003D".to_vec()),
                    _ => after = b"x",
                },
                Question::Empty => element.receipts.clear(),
                Question::First => {
                    let receipt = b"eyJhbGciOiJFUzI1NiJ9.X1IxLUFUMF8.".to_vec();
                    match element.receipts.first_mut() {
                        Some(first) => *first = receipt,
                        None => element.receipts.push(receipt),
                    }
                }
                Question::Room => room = self.random.pick(&[0, 1, 18, 27]),
                Question::Width => match self.random.below(2) {
                    0 => width = sample::bad_width(&self.random) as usize,
                    _ => key.truncate(self.random.pick(&[0, 31])),
                },
                Question::Journal => (),
            }
        }
        let expected = match wrong[0] {
            Question::StateLength => (6, 0),
            Question::Shape | Question::First => (28, 0),
            Question::Empty => (29, 0),
            Question::Room => (23, 0),
            Question::Width => (4, 0),
            Question::Journal => (number, index as u32),
        };
        let text = [&self.respelled_text(&inspected.export)[..], after].concat();
        let mut output = vec![0x5a; room];
        let mut state = self.garbage(length);
        let read = self.compare.read_export(&text, &key, width, &mut output, &mut state)?;
        demand((read.number, read.index) == expected, "the first question of Read export decides", &text)
    }

    // ---- long texts

    /// Receipts at the limit of their length, many certificates and long ones.
    pub(super) fn long_exports(&mut self) -> Compared<()> {
        let inspected = self.inspected(&[2, 1]);
        let first = &inspected.journal.pairs[0].entries[0];
        let rest = first.form().len() - first.header.len();
        for (length, number) in [(65_535, 16), (65_536, 28)] {
            // a first receipt with a long header, as it is or in escapes
            let header = match self.random.below(3) {
                0 => vec![b'='; length - rest],
                _ => ESCAPE.repeat(length - rest),
            };
            let text = inspected.with_receipt(0, 0, Entry { header, ..first.clone() }.form());
            self.refused_with(&inspected, &text, number, 0, "a receipt has at most 65,535 bytes")?;
        }
        for (length, number, index) in [(65_535, 16, 1), (65_536, 28, 0), (131_071, 28, 0)] {
            let text = inspected.with_receipt(0, 1, vec![b' '; length]);
            self.refused_with(&inspected, &text, number, index, "a receipt has at most 65,535 bytes")?;
        }
        // a long payload, whose ID and serial are good
        let mut long = first.clone();
        long.fields[NUMBER] = vec![b'1'; self.random.pick(&[200, 1000, 48_000])];
        let text = inspected.with_receipt(0, 0, long.form());
        self.refused_with(&inspected, &text, 16, 0, "a first receipt has no limit but that of an entry")?;
        long.fields.push(Vec::new());
        let text = inspected.with_receipt(0, 0, long.form());
        self.refused_with(&inspected, &text, 28, 0, "a long first receipt has twelve fields, too")?;

        // more certificates than a group has, and longer ones
        let long = padded_text(&self.garbage(65_536 + self.random.below(3)));
        let text = inspected.with_element(1, |element| element.certificate = long);
        self.reads_back(&inspected, &text)?;
        let text = inspected.with_element(0, |element| element.issuers.resize(300, b"AQ==".to_vec()));
        self.reads_back(&inspected, &text)?;

        // as many and as long as a group can have
        let mut longest = inspected;
        longest.groups = vec![vec![b"c".to_vec(); 255], vec![self.garbage(65_535), Vec::new()]];
        longest.export = Export::with(&longest.journal, &longest.groups);
        self.written_and_read(&longest)?;

        // a count of more than a byte, and an index
        let many = self.inspected(&[self.random.pick(&[1, 2]), self.random.pick(&[255, 256, 257, 300])]);
        self.written_and_read(&many)?;
        let last = many.export.elements[1].receipts.len() - 1;
        let text = many.with_receipt(1, last, b"..".to_vec());
        self.refused_with(&many, &text, 16, many.receipts() - 1, "the index of a late receipt")
    }

    // ---- every place

    /// A short text cut at every place, and with other bytes at every place.
    pub(super) fn texts_with_every_change(&mut self) -> Compared<()> {
        let mut inspected = self.inspected(&[1]);
        inspected.groups = vec![vec![b"c".to_vec(), b"is".to_vec()]];
        inspected.journal.entry(0).signature = FAILURE.to_vec();
        inspected.export = Export::with(&inspected.journal, &inspected.groups);
        let text = inspected.text();
        self.reads_back(&inspected, &text)?;
        for place in 0..text.len() {
            self.refused_with(&inspected, &text[..place], 28, 0, "a text that is cut gets 28")?;
            for byte in b"\"\\\0\x09\n\x1f\x7f\x80\xff" {
                let mut other = text.clone();
                other[place] = *byte;
                if other != text {
                    self.refused_with(&inspected, &other, 28, 0, "a text with a foreign byte gets 28")?;
                }
            }
            for byte in [b' ', b',', b'=', b'A', text[place] ^ 1, text[place] ^ 0x20, self.random.byte()] {
                let mut other = text.clone();
                other[place] = byte;
                self.read_text(&other, &inspected.settings.key, inspected.width())?;
            }
            let mut longer = text.clone();
            longer.insert(place, self.random.pick(b" \t\n\r,\"\\=A"));
            self.read_text(&longer, &inspected.settings.key, inspected.width())?;
            let mut shorter = text.clone();
            shorter.remove(place);
            self.read_text(&shorter, &inspected.settings.key, inspected.width())?;
        }
        Ok(())
    }
}
