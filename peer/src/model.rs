//! A journal, a code and an export in their parts, to be changed and put together again.

use std::ops::Range;

use crate::crypto::Aes256;
use crate::export::{CERTIFICATE, GROUPS, ISSUERS, RECEIPTS};
use crate::receipt::{
    Details, FAILURE, HEADER, Kind, chain_value, counter_after, counter_iv, encrypt_counter, push_date, read_cents,
    read_compact,
};
use crate::settings::{Name, Settings};
use crate::text::Text;
use crate::{base32, base64};

pub fn url_text(data: &[u8]) -> Vec<u8> {
    let mut text = vec![0; base64::letters(data.len())];
    base64::write_url(data, &mut text);
    text
}

pub fn padded_text(data: &[u8]) -> Vec<u8> {
    let mut text = vec![0; base64::padded_letters(data.len())];
    base64::write_padded(data, &mut text);
    text
}

/// An amount as the paper spells it, within the limits or not.
pub fn spelled(amount: i64) -> Vec<u8> {
    let sign = if amount < 0 { "-" } else { "" };
    let cents = amount.unsigned_abs();
    format!("{sign}{},{:02}", cents / 100, cents % 100).into_bytes()
}

/// What Issue is given: the details, and the signature, which is empty where the device has failed.
pub type Given = (Details, Vec<u8>);

/// The places of the fields in a payload.
pub const NUMBER: usize = 2;
pub const FIRST_AMOUNT: usize = 4;
pub const COUNTER: usize = 9;
pub const SERIAL: usize = 10;
pub const CHAIN: usize = 11;

#[derive(Clone)]
pub struct Entry {
    /// The first element as it is written.
    pub header: Vec<u8>,
    /// The payload is `lead` and the fields joined by "_".
    pub lead: Vec<u8>,
    pub fields: Vec<Vec<u8>>,
    pub signature: Vec<u8>,
    /// Stands for all of the above.
    pub raw: Option<Vec<u8>>,
    /// Its spelling was changed.
    pub respelled: bool,
}

impl Entry {
    /// The parts of a receipt with a good date. Its chain field is empty, and so is the counter field of a standard one.
    pub fn with(settings: &Settings, (details, signature): &Given) -> Entry {
        let mut date = Text::<19>::new();
        push_date(&mut date, &details.date);
        let mark: [&[u8]; 3] = [b"", b"U1RP", b"VFJB"];
        let mut fields = vec![[b"R1-", &settings.csp[..]].concat(), settings.id().to_vec()];
        fields.push(details.number.to_string().into_bytes());
        fields.push(date.bytes().to_vec());
        fields.extend(details.amounts.map(spelled));
        fields.push(mark[details.kind as usize].to_vec());
        fields.push(settings.serial().to_vec());
        fields.push(Vec::new());
        let signature = if signature.is_empty() { FAILURE } else { &signature[..] };
        Entry {
            header: HEADER.to_vec(),
            lead: b"_".to_vec(),
            fields,
            signature: signature.to_vec(),
            raw: None,
            respelled: false,
        }
    }

    /// The parts of a well spelled compact form.
    pub fn of(form: &[u8]) -> Entry {
        let parts = read_compact(form).expect("well spelled");
        let fields = parts.payload()[1..].split(|&byte| byte == b'_').map(<[u8]>::to_vec).collect();
        Entry {
            header: form.split(|&byte| byte == b'.').next().expect("an element").to_vec(),
            lead: b"_".to_vec(),
            fields,
            signature: parts.signature().to_vec(),
            raw: None,
            respelled: false,
        }
    }

    pub fn payload(&self) -> Vec<u8> {
        [&self.lead[..], &self.fields.join(&b'_')[..]].concat()
    }

    pub fn form(&self) -> Vec<u8> {
        match &self.raw {
            Some(raw) => raw.clone(),
            None => [&self.header[..], &url_text(&self.payload()), &url_text(&self.signature)].join(&b'.'),
        }
    }

    /// The machine-readable code, whatever the parts are.
    pub fn code(&self) -> Vec<u8> {
        [&self.payload()[..], b"_", &padded_text(&self.signature)].concat()
    }

    /// By the counter field.
    pub fn kind(&self) -> Kind {
        match self.fields.get(COUNTER).map(|field| &field[..]) {
            Some(b"U1RP") => Kind::Cancellation,
            Some(b"VFJB") => Kind::Training,
            _ => Kind::Standard,
        }
    }

    /// Five amounts, within the limits or not; 0 where one can't be read.
    pub fn amounts(&self) -> [i64; 5] {
        std::array::from_fn(|i| self.fields.get(FIRST_AMOUNT + i).and_then(|field| read_cents(field)).unwrap_or(0))
    }
}

/// The place of the signature after the twelve fields.
pub const SIGNED: usize = 12;

/// What has BASE64 in a code and BASE32 in its line: counter field, chain field and signature.
pub const SPELLED: [usize; 3] = [COUNTER, CHAIN, SIGNED];

/// What a code and its line say: twelve fields and the signature. Those at the places of SPELLED are the bytes themselves.
#[derive(Clone)]
pub struct Printed {
    pub parts: Vec<Vec<u8>>,
}

impl Printed {
    /// What a well spelled code says.
    pub fn of(code: &[u8]) -> Printed {
        let mut parts: Vec<Vec<u8>> = code[1..].split(|&byte| byte == b'_').map(<[u8]>::to_vec).collect();
        for place in SPELLED {
            let mut data = vec![0; parts[place].len()];
            let length = base64::read_padded(&parts[place], &mut data).expect("well spelled");
            data.truncate(length);
            parts[place] = data;
        }
        Printed { parts }
    }

    fn texts(&self, spell: fn(&[u8]) -> Vec<u8>) -> Vec<Vec<u8>> {
        let mut texts = self.parts.clone();
        for place in SPELLED {
            texts[place] = spell(&self.parts[place]);
        }
        texts
    }

    /// The twelve fields and the signature of the code.
    pub fn code_texts(&self) -> Vec<Vec<u8>> {
        self.texts(padded_text)
    }

    /// The twelve fields and the signature of the line.
    pub fn line_texts(&self) -> Vec<Vec<u8>> {
        self.texts(base32::padded_text)
    }

    pub fn code(&self) -> Vec<u8> {
        joined(&self.code_texts())
    }

    pub fn line(&self) -> Vec<u8> {
        joined(&self.line_texts())
    }

    /// The payload of the code, and of the compact form.
    pub fn payload(&self) -> Vec<u8> {
        joined(&self.code_texts()[..SIGNED])
    }

    /// The compact form of the code.
    pub fn form(&self) -> Vec<u8> {
        [&HEADER[..], &url_text(&self.payload()), &url_text(&self.parts[SIGNED])].join(&b'.')
    }
}

/// The texts with "_" before each.
pub fn joined<T: AsRef<[u8]>>(texts: &[T]) -> Vec<u8> {
    let mut bytes = Vec::new();
    for text in texts {
        bytes.push(b'_');
        bytes.extend_from_slice(text.as_ref());
    }
    bytes
}

/// A serial, and the receipts that have it.
#[derive(Clone)]
pub struct Pair {
    pub serial: Vec<u8>,
    /// The receipts count, whatever the entries are.
    pub count: u32,
    pub entries: Vec<Entry>,
}

impl Pair {
    /// A pair of these receipts; chain fields and counter fields are empty.
    pub fn with(settings: &Settings, receipts: &[Given]) -> Pair {
        Pair {
            serial: settings.serial().to_vec(),
            count: receipts.len() as u32,
            entries: receipts.iter().map(|given| Entry::with(settings, given)).collect(),
        }
    }

    /// A pair without receipts.
    pub fn empty(serial: &[u8]) -> Pair {
        Pair { serial: serial.to_vec(), count: 0, entries: Vec::new() }
    }
}

/// Where a pair stands in a journal: the serial's count, the receipts count, the entries with their lengths, and the end.
#[derive(Clone, Debug)]
pub struct PairPlaces {
    pub start: usize,
    pub count: usize,
    pub entries: Vec<Range<usize>>,
    pub end: usize,
}

impl PairPlaces {
    /// Where the serial stands.
    pub fn serial(&self) -> Range<usize> {
        self.start + 4..self.count
    }
}

fn number_at(bytes: &[u8], place: usize, length: usize) -> usize {
    bytes[place..place + length].iter().fold(0, |number, &byte| number << 8 | byte as usize)
}

/// The pairs of a valid journal, as the C header walks them.
pub fn pair_places(journal: &[u8]) -> Vec<PairPlaces> {
    let mut pairs = Vec::new();
    let mut at = 0;
    for _ in 0..2 {
        at += 4 + number_at(journal, at, 4);
    }
    while at < journal.len() {
        let start = at;
        let count = start + 4 + number_at(journal, start, 4);
        at = count + 4;
        let mut entries = Vec::new();
        for _ in 0..number_at(journal, count, 4) {
            let end = at + 2 + number_at(journal, at, 2);
            entries.push(at..end);
            at = end;
        }
        pairs.push(PairPlaces { start, count, entries, end: at });
    }
    pairs
}

#[derive(Clone)]
pub struct Journal {
    pub csp: Vec<u8>,
    pub id: Vec<u8>,
    pub pairs: Vec<Pair>,
}

impl Journal {
    /// The journal of these receipts in one pair, whatever their amounts and numbers are: counters and chain are right.
    pub fn with(settings: &Settings, receipts: &[Given]) -> Journal {
        Journal::with_pairs(settings, &[(settings.serial().to_vec(), receipts.to_vec())])
    }

    /// The journal of these pairs, each of a serial and its receipts.
    pub fn with_pairs(settings: &Settings, pairs: &[(Vec<u8>, Vec<Given>)]) -> Journal {
        let pair = |(serial, receipts): &(Vec<u8>, Vec<Given>)| {
            Pair::with(&Settings { serial: Name::of(serial), ..*settings }, receipts)
        };
        let mut journal =
            Journal { csp: settings.csp.to_vec(), id: settings.id().to_vec(), pairs: pairs.iter().map(pair).collect() };
        journal.counters_right(0, &settings.key, settings.width as usize);
        journal.chain_right(0);
        journal
    }

    /// The parts of a valid journal.
    pub fn of(journal: &[u8]) -> Journal {
        let places = pair_places(journal);
        let pair = |places: &PairPlaces| Pair {
            serial: journal[places.serial()].to_vec(),
            count: places.entries.len() as u32,
            entries: places.entries.iter().map(|entry| Entry::of(&journal[entry.start + 2..entry.end])).collect(),
        };
        let id = 7 + 4..places[0].start;
        Journal { csp: journal[4..7].to_vec(), id: journal[id].to_vec(), pairs: places.iter().map(pair).collect() }
    }

    pub fn bytes(&self) -> Vec<u8> {
        let mut bytes = Vec::new();
        push_section(&mut bytes, &self.csp);
        push_section(&mut bytes, &self.id);
        for pair in &self.pairs {
            push_section(&mut bytes, &pair.serial);
            bytes.extend(pair.count.to_be_bytes());
            for entry in &pair.entries {
                let form = entry.form();
                bytes.extend((form.len() as u16).to_be_bytes());
                bytes.extend(form);
            }
        }
        bytes
    }

    /// The entries of all pairs.
    pub fn entries(&self) -> Vec<&Entry> {
        self.pairs.iter().flat_map(|pair| &pair.entries).collect()
    }

    /// The entries of all pairs, to be changed.
    pub fn entries_mut(&mut self) -> Vec<&mut Entry> {
        self.pairs.iter_mut().flat_map(|pair| &mut pair.entries).collect()
    }

    /// One of all entries.
    pub fn entry(&mut self, index: usize) -> &mut Entry {
        let (pair, place) = self.place(index);
        &mut self.pairs[pair].entries[place]
    }

    /// The pair in which this one of all entries stands, and its place there.
    pub fn place(&self, index: usize) -> (usize, usize) {
        let mut place = index;
        for (i, pair) in self.pairs.iter().enumerate() {
            if place < pair.entries.len() {
                return (i, place);
            }
            place -= pair.entries.len();
        }
        panic!("no entry {index}");
    }

    /// How many entries stand before this pair.
    pub fn before(&self, pair: usize) -> usize {
        self.pairs[..pair].iter().map(|pair| pair.entries.len()).sum()
    }

    /// Makes the chain fields right from this entry on, raw entries aside.
    pub fn chain_right(&mut self, from: usize) {
        let mut previous = self.id.clone();
        for (i, entry) in self.entries_mut().into_iter().enumerate() {
            if let Some(field) = entry.fields.get_mut(CHAIN).filter(|_| i >= from) {
                *field = padded_text(&chain_value(&previous));
            }
            previous = entry.form();
        }
    }

    /// Makes the counter fields of standard receipts right from this entry on; a sum that doesn't fit loses its upper
    /// bytes.
    pub fn counters_right(&mut self, from: usize, key: &[u8; 32], width: usize) {
        let aes = Aes256::new(key);
        let id = self.id.clone();
        let mut counter = 0;
        for (i, entry) in self.entries_mut().into_iter().enumerate() {
            let kind = entry.kind();
            counter = counter_after(counter, kind, &entry.amounts()) as i64;
            if i >= from && kind == Kind::Standard && entry.fields.len() > COUNTER {
                let iv = counter_iv(&id, &entry.fields[NUMBER]);
                entry.fields[COUNTER] = padded_text(&encrypt_counter(&aes, &iv, counter, width)[..width]);
            }
        }
    }

    /// Makes counters and chain right from this entry on.
    pub fn all_right(&mut self, from: usize, settings: &Settings) {
        self.counters_right(from, &settings.key, settings.width as usize);
        self.chain_right(from);
    }
}

/// A section of bytes after its count.
fn push_section(bytes: &mut Vec<u8>, section: &[u8]) {
    bytes.extend((section.len() as u32).to_be_bytes());
    bytes.extend(section);
}

// ---- the export

/// A group of certificates as bytes: their number, and each after its length in two bytes.
pub fn group_bytes(group: &[Vec<u8>]) -> Vec<u8> {
    let mut bytes = vec![group.len() as u8];
    for certificate in group {
        bytes.extend((certificate.len() as u16).to_be_bytes());
        bytes.extend(certificate);
    }
    bytes
}

/// The names of an element as the request lists them.
pub const ELEMENT_NAMES: [&[u8]; 3] = [CERTIFICATE, ISSUERS, RECEIPTS];

/// An element of an export: what stands between the quotes of its strings, and the order of its names.
#[derive(Clone)]
pub struct Element {
    pub certificate: Vec<u8>,
    pub issuers: Vec<Vec<u8>>,
    pub receipts: Vec<Vec<u8>>,
    pub order: [usize; 3],
}

/// An export in its parts.
#[derive(Clone)]
pub struct Export {
    pub elements: Vec<Element>,
}

fn quoted(string: &[u8]) -> Vec<u8> {
    [b"\"", string, b"\""].concat()
}

/// Adds a list of items, each of some marks and strings, with its brackets and commas.
fn push_items(tokens: &mut Vec<Vec<u8>>, items: impl Iterator<Item = Vec<Vec<u8>>>) {
    tokens.push(b"[".to_vec());
    for (place, item) in items.enumerate() {
        if place > 0 {
            tokens.push(b",".to_vec());
        }
        tokens.extend(item);
    }
    tokens.push(b"]".to_vec());
}

impl Element {
    /// The marks and strings of one of the three members, its name first.
    pub fn member(&self, which: usize) -> Vec<Vec<u8>> {
        let mut tokens = vec![quoted(ELEMENT_NAMES[which]), b":".to_vec()];
        let strings = |strings: &[Vec<u8>]| strings.iter().map(|string| vec![quoted(string)]).collect::<Vec<_>>();
        match which {
            0 => tokens.push(quoted(&self.certificate)),
            1 => push_items(&mut tokens, strings(&self.issuers).into_iter()),
            _ => push_items(&mut tokens, strings(&self.receipts).into_iter()),
        }
        tokens
    }

    /// An object of these members.
    pub fn object(&self, members: &[usize]) -> Vec<Vec<u8>> {
        let mut tokens = vec![b"{".to_vec()];
        for (place, &which) in members.iter().enumerate() {
            if place > 0 {
                tokens.push(b",".to_vec());
            }
            tokens.extend(self.member(which));
        }
        tokens.push(b"}".to_vec());
        tokens
    }
}

impl Export {
    /// The export of a journal, whatever its parts are, with a group of certificates for each pair.
    pub fn with(journal: &Journal, groups: &[Vec<Vec<u8>>]) -> Export {
        let element = |(pair, group): (&Pair, &Vec<Vec<u8>>)| Element {
            certificate: padded_text(&group[0]),
            issuers: group[1..].iter().map(|certificate| padded_text(certificate)).collect(),
            receipts: pair.entries.iter().map(Entry::form).collect(),
            order: [0, 1, 2],
        };
        Export { elements: journal.pairs.iter().zip(groups).map(element).collect() }
    }

    /// All marks and strings of the text.
    pub fn tokens(&self) -> Vec<Vec<u8>> {
        let mut tokens = vec![b"{".to_vec(), quoted(GROUPS), b":".to_vec()];
        push_items(&mut tokens, self.elements.iter().map(|element| element.object(&element.order)));
        tokens.push(b"}".to_vec());
        tokens
    }

    /// The text without blanks.
    pub fn text(&self) -> Vec<u8> {
        self.tokens().concat()
    }
}
