//! The export of a journal for an inspector, which is the JSON text of the annex, and back to the journal (request E2). It has an
//! element for each pair (request E5). The questions stand in the order of the C header.

use std::borrow::Cow;

use crate::base64;
use crate::register::{Reader, Refused, State, take_over};
use crate::settings::{Number, csp_good, id_good, serial_good};

/// The names in the text: the outer one, and those of an element.
pub const GROUPS: &[u8] = b"Belege-Gruppe";
pub const CERTIFICATE: &[u8] = b"Signaturzertifikat";
pub const ISSUERS: &[u8] = b"Zertifizierungsstellen";
pub const RECEIPTS: &[u8] = b"Belege-kompakt";

/// The most bytes of a receipt, as its length has two bytes.
pub const LONGEST_RECEIPT: usize = u16::MAX as usize;

/// A refusal that names no entry.
fn no(number: Number) -> Refused {
    Refused { number, index: 0 }
}

/// Take over under a key of any length: another one than 32 is asked with the width.
fn taken_over(journal: &[u8], key: &[u8], width: u64) -> Result<State, Refused> {
    take_over(journal, key.try_into().map_err(|_| no(4))?, width)
}

// ---- writing

/// Writes the text of a journal and its certificates to the start of the output and returns its length.
pub fn export(
    journal: &[u8],
    key: &[u8],
    width: u64,
    certificates: &[u8],
    output: &mut [u8],
) -> Result<usize, Refused> {
    taken_over(journal, key, width)?;
    let pairs = pairs_in(journal).expect("an accepted journal");
    let groups = groups_in(certificates, pairs.len()).ok_or(no(28))?;
    let text = text_of(&pairs, &groups);
    output.get_mut(..text.len()).ok_or(no(23))?.copy_from_slice(&text);
    Ok(text.len())
}

/// The compact forms of each pair of an accepted journal.
pub(crate) fn pairs_in(journal: &[u8]) -> Option<Vec<Vec<&[u8]>>> {
    let mut reader = Reader { rest: journal };
    let (_csp, _id) = (reader.section()?, reader.section()?);
    let mut pairs = Vec::new();
    while !reader.rest.is_empty() {
        let (_serial, count) = reader.pair()?;
        pairs.push((0..count).map(|_| reader.entry()).collect::<Option<_>>()?);
    }
    Some(pairs)
}

/// The certificates of so many groups with no byte after them; None where the bytes are anything else.
pub(crate) fn groups_in(certificates: &[u8], pairs: usize) -> Option<Vec<Vec<&[u8]>>> {
    let mut reader = Reader { rest: certificates };
    let groups = (0..pairs).map(|_| group(&mut reader)).collect::<Option<_>>()?;
    reader.rest.is_empty().then_some(groups)
}

/// A byte with the number of certificates, 1 or more, then each after its length in two bytes.
fn group<'a>(reader: &mut Reader<'a>) -> Option<Vec<&'a [u8]>> {
    let number = reader.take(1)?[0];
    if number == 0 {
        return None;
    }
    (0..number).map(|_| reader.entry()).collect()
}

fn text_of(pairs: &[Vec<&[u8]>], groups: &[Vec<&[u8]>]) -> Vec<u8> {
    let mut text = Vec::new();
    text.push(b'{');
    push_name(&mut text, GROUPS);
    let elements: Vec<_> = pairs.iter().zip(groups).collect();
    push_list(&mut text, &elements, |text, (receipts, certificates)| {
        text.push(b'{');
        push_name(text, CERTIFICATE);
        push_certificate(text, certificates[0]);
        text.push(b',');
        push_name(text, ISSUERS);
        push_list(text, &certificates[1..], |text, certificate| push_certificate(text, certificate));
        text.push(b',');
        push_name(text, RECEIPTS);
        push_list(text, receipts, |text, receipt| push_string(text, receipt));
        text.push(b'}');
    });
    text.push(b'}');
    text
}

fn push_list<T>(text: &mut Vec<u8>, items: &[T], push: impl Fn(&mut Vec<u8>, &T)) {
    text.push(b'[');
    for (place, item) in items.iter().enumerate() {
        if place > 0 {
            text.push(b',');
        }
        push(text, item);
    }
    text.push(b']');
}

fn push_name(text: &mut Vec<u8>, name: &[u8]) {
    push_string(text, name);
    text.push(b':');
}

fn push_string(text: &mut Vec<u8>, string: &[u8]) {
    text.push(b'"');
    text.extend_from_slice(string);
    text.push(b'"');
}

fn push_certificate(text: &mut Vec<u8>, certificate: &[u8]) {
    text.push(b'"');
    let start = text.len();
    text.resize(start + base64::padded_letters(certificate.len()), 0);
    base64::write_padded(certificate, &mut text[start..]);
    text.push(b'"');
}

// ---- reading

/// The receipts of an element.
pub(crate) type Receipts<'a> = Vec<Cow<'a, [u8]>>;

/// Writes the journal that a text spells to the start of the output; its length, and the state after it.
pub fn read_export(text: &[u8], key: &[u8], width: u64, output: &mut [u8]) -> Result<(usize, State), Refused> {
    let elements = elements_in(text).ok_or(no(28))?;
    read_elements(&elements, key, width, output)
}

/// The same for elements whose shape was asked.
pub(crate) fn read_elements(
    elements: &[Receipts],
    key: &[u8],
    width: u64,
    output: &mut [u8],
) -> Result<(usize, State), Refused> {
    if elements.iter().any(|receipts| receipts.is_empty()) {
        return Err(no(29));
    }
    let firsts: Option<Vec<First>> = elements.iter().map(|receipts| first_in(&receipts[0])).collect();
    let journal = journal_of(elements, &firsts.ok_or(no(28))?);
    if journal.len() > output.len() {
        return Err(no(23));
    }
    let state = taken_over(&journal, key, width)?;
    output[..journal.len()].copy_from_slice(&journal);
    Ok((journal.len(), state))
}

/// The receipts of each element of a text; None where it is of another shape (question 28).
fn elements_in(text: &[u8]) -> Option<Vec<Receipts<'_>>> {
    let mut json = Json { rest: text };
    json.mark(b'{')?;
    json.name(GROUPS)?;
    let elements = json.list(Json::element)?;
    json.mark(b'}')?;
    json.blanks();
    (json.rest.is_empty() && !elements.is_empty()).then_some(elements)
}

/// The text that is not read yet.
struct Json<'a> {
    rest: &'a [u8],
}

impl<'a> Json<'a> {
    fn blanks(&mut self) {
        while let [b' ' | b'\t' | b'\n' | b'\r', rest @ ..] = self.rest {
            self.rest = rest;
        }
    }

    /// This byte, which is a mark of JSON, with blanks before it or not.
    fn mark(&mut self, mark: u8) -> Option<()> {
        self.blanks();
        self.rest = self.rest.strip_prefix(&[mark])?;
        Some(())
    }

    /// A string with its escapes read.
    fn string(&mut self) -> Option<Cow<'a, [u8]>> {
        self.mark(b'"')?;
        let mut string = Cow::Borrowed(self.plain());
        while let [b'\\', b'u', b'0', b'0', b'3', b'd', rest @ ..] = self.rest {
            self.rest = rest;
            string.to_mut().push(b'=');
            string.to_mut().extend_from_slice(self.plain());
        }
        self.rest = self.rest.strip_prefix(b"\"")?;
        Some(string)
    }

    /// The next bytes that stand for themselves in a string.
    fn plain(&mut self) -> &'a [u8] {
        let plain = |byte: &u8| matches!(byte, 32..=126) && !matches!(byte, b'"' | b'\\');
        let length = self.rest.iter().position(|byte| !plain(byte)).unwrap_or(self.rest.len());
        let (plain, rest) = self.rest.split_at(length);
        self.rest = rest;
        plain
    }

    /// This name and its colon.
    fn name(&mut self, name: &[u8]) -> Option<()> {
        let found = self.string()?;
        self.mark(b':')?;
        (found == name).then_some(())
    }

    fn list<T>(&mut self, item: fn(&mut Self) -> Option<T>) -> Option<Vec<T>> {
        let mut items = Vec::new();
        self.mark(b'[')?;
        if self.mark(b']').is_some() {
            return Some(items);
        }
        loop {
            items.push(item(self)?);
            if self.mark(b']').is_some() {
                return Some(items);
            }
            self.mark(b',')?;
        }
    }

    /// The receipts of an element, which has each of its names once.
    fn element(&mut self) -> Option<Receipts<'a>> {
        let (mut certificate, mut issuers, mut receipts) = (None, None, None);
        self.mark(b'{')?;
        loop {
            let name = self.string()?;
            self.mark(b':')?;
            match &name[..] {
                CERTIFICATE if certificate.is_none() => certificate = Some(self.certificate()?),
                ISSUERS if issuers.is_none() => issuers = Some(self.list(Json::certificate)?),
                RECEIPTS if receipts.is_none() => receipts = Some(self.list(Json::receipt)?),
                _ => return None,
            }
            if self.mark(b'}').is_some() {
                break;
            }
            self.mark(b',')?;
        }
        certificate.and(issuers).and(receipts).filter(|receipts| u32::try_from(receipts.len()).is_ok())
    }

    /// A string of canonical BASE64.
    fn certificate(&mut self) -> Option<()> {
        certificate_good(&self.string()?).then_some(())
    }

    /// A string that is not too long for an entry.
    fn receipt(&mut self) -> Option<Cow<'a, [u8]>> {
        self.string().filter(|receipt| receipt.len() <= LONGEST_RECEIPT)
    }
}

/// Is this canonical BASE64?
pub(crate) fn certificate_good(text: &[u8]) -> bool {
    base64::read_padded(text, &mut vec![0; text.len()]).is_some()
}

/// What the first receipt of an element names.
struct First {
    csp: Vec<u8>,
    id: Vec<u8>,
    serial: Vec<u8>,
}

/// Three elements, the middle one canonical for twelve fields with good CSP, ID and serial; nothing else is asked of it.
fn first_in(receipt: &[u8]) -> Option<First> {
    let mut parts = receipt.split(|&byte| byte == b'.');
    let (_header, middle, _signature) = (parts.next()?, parts.next()?, parts.next()?);
    if parts.next().is_some() {
        return None;
    }
    let mut payload = vec![0; middle.len()];
    let length = base64::read_url(middle, &mut payload)?;
    let fields: Vec<&[u8]> = payload[..length].strip_prefix(b"_")?.split(|&byte| byte == b'_').collect();
    if fields.len() != 12 {
        return None;
    }
    let csp = fields[0].strip_prefix(b"R1-").filter(|csp| csp_good(csp))?;
    let id = Some(fields[1]).filter(|id| id_good(id))?;
    let serial = Some(fields[10]).filter(|serial| serial_good(serial))?;
    Some(First { csp: csp.to_vec(), id: id.to_vec(), serial: serial.to_vec() })
}

/// The journal of these receipts, with CSP and ID of the first element and the serial of each.
fn journal_of(elements: &[Receipts], firsts: &[First]) -> Vec<u8> {
    let mut journal = Vec::new();
    push_section(&mut journal, &firsts[0].csp);
    push_section(&mut journal, &firsts[0].id);
    for (receipts, first) in elements.iter().zip(firsts) {
        push_section(&mut journal, &first.serial);
        journal.extend((receipts.len() as u32).to_be_bytes());
        for receipt in receipts {
            journal.extend((receipt.len() as u16).to_be_bytes());
            journal.extend_from_slice(receipt);
        }
    }
    journal
}

/// A section of bytes after its count.
fn push_section(journal: &mut Vec<u8>, section: &[u8]) {
    journal.extend((section.len() as u32).to_be_bytes());
    journal.extend_from_slice(section);
}
