//! A register: open, prepare, issue, a list of receipts, change, take over, the same in parts, and read. The questions stand in
//! the order of the paper, those of read in that of the C header; `Err` holds the number of the first one that is answered by
//! "no".

use crate::crypto::Aes256;
use crate::receipt::{
    Details, FAILURE, Kind, LONGEST_INPUT, Receipt, amount_good, chain_value, compact_form, counter_after,
    counter_fits, counter_iv, decrypt_counter, digits, payload, read_entry, signing_input,
};
use crate::settings::{Name, Number, Settings, csp_good, id_good, serial_good, width_good};

/// So many serials a register can have, one after the other.
pub const SERIALS: usize = 8;

/// The state of a register. Any values are possible; the default is the unopened state.
#[derive(Clone, Copy, Debug, Default, PartialEq, Eq)]
pub struct State {
    pub csp: [u8; 3],
    pub id: Name,
    /// Those used, the newest last, then zeros.
    pub serials: [Name; SERIALS],
    /// N, the bytes of the counter.
    pub width: u64,
    pub key: [u8; 32],
    pub counter: i64,
    pub last_number: u32,
    /// Receipts issued, in all sections.
    pub receipts: u32,
    pub chain: [u8; 8],
    pub journal_length: u64,
    /// The receipts in the open section.
    pub open_receipts: u32,
    /// The place of the open section's count in the journal.
    pub open_place: u64,
}

impl State {
    /// The state of a register that was just opened with good settings.
    pub fn opened(settings: &Settings) -> State {
        let mut state = State {
            csp: settings.csp,
            id: settings.id,
            width: settings.width,
            key: settings.key,
            chain: chain_value(settings.id()),
            journal_length: settings.head_length() as u64,
            open_place: settings.head_length() as u64 - 4,
            ..State::default()
        };
        state.serials[0] = settings.serial;
        state
    }

    /// How many serials are used: those before the first of length 0.
    pub fn used(&self) -> usize {
        self.serials.iter().position(|serial| serial.length == 0).unwrap_or(SERIALS)
    }

    /// A serial that is used, by its place from 0.
    pub fn serial_in(&self, which: usize) -> Option<&Name> {
        self.serials[..self.used()].get(which)
    }

    /// The settings with one of the serials, by its place from 0; with an empty serial where there is no such one.
    pub fn settings_in(&self, which: usize) -> Settings {
        let serial = self.serial_in(which).copied().unwrap_or_default();
        Settings { csp: self.csp, id: self.id, serial, width: self.width, key: self.key }
    }

    /// The settings with the serial of the head.
    pub fn first(&self) -> Settings {
        self.settings_in(0)
    }

    /// The settings with the serial that receipts have now.
    pub fn newest(&self) -> Settings {
        self.settings_in(self.used().saturating_sub(1))
    }

    /// One to eight good serials with zeros after them?
    fn serials_good(&self) -> bool {
        let (used, after) = self.serials.split_at(self.used());
        !used.is_empty()
            && used.iter().all(|serial| serial.text().is_some_and(serial_good))
            && after.iter().all(|serial| *serial == Name::default())
    }

    /// Does the count of the open section end within the journal length?
    fn count_within(&self) -> bool {
        self.open_place.checked_add(4).is_some_and(|end| end <= self.journal_length)
    }

    /// Question 6 without the buffer: settings and serials good, counter fits, receipts ≤ last number, head ≤ journal
    /// length, receipts in the open section ≤ receipts, and its count within the journal.
    fn sound(&self) -> bool {
        self.first().good().is_ok()
            && self.serials_good()
            && counter_fits(self.counter as i128, self.width)
            && self.receipts <= self.last_number
            && self.first().head_length() as u64 <= self.journal_length
            && self.open_receipts <= self.receipts
            && self.count_within()
    }

    /// Question 6 for a journal in this buffer.
    fn sound_in(&self, buffer: &[u8]) -> bool {
        self.sound() && self.journal_length <= buffer.len() as u64
    }

    /// Question 6 of a check: the count of the open section as the journal has it, which the state does not exceed.
    fn counted_in(&self, journal: &[u8]) -> Result<u32, Number> {
        if !self.sound_in(journal) {
            return Err(6);
        }
        let mut reader = Reader { rest: &journal[self.open_place as usize..] };
        reader.count().filter(|&count| self.open_receipts <= count).ok_or(6)
    }

    /// Questions 7 to 11 on a sound state: the kind, and the counter after the receipt.
    fn accepts(&self, details: &Details) -> Result<(Kind, i64), Number> {
        if details.number <= self.last_number {
            return Err(7);
        }
        // the interface gives an unknown kind the same number
        let Some(kind) = Kind::of(details.kind) else { return Err(7) };
        if !details.date.good() {
            return Err(8);
        }
        if !details.amounts.iter().all(|&amount| amount_good(amount)) {
            return Err(9);
        }
        if self.receipts == 0 && (kind != Kind::Standard || details.amounts != [0; 5]) {
            return Err(10);
        }
        let counter = counter_after(self.counter, kind, &details.amounts);
        if !counter_fits(counter, self.width) {
            return Err(11);
        }
        Ok((kind, counter as i64))
    }

    /// Questions 30 and 31 on a good serial: its place among those used.
    fn place_of(&self, serial: &[u8]) -> Result<usize, Number> {
        let used = self.used();
        if self.serials[..used].contains(&Name::of(serial)) {
            return Err(30);
        }
        if used == SERIALS {
            return Err(31);
        }
        Ok(used)
    }

    /// Opens an empty section for this serial, whose pair starts at the end of the journal.
    fn add_pair(&mut self, place: usize, serial: &[u8]) {
        self.serials[place] = Name::of(serial);
        self.open_receipts = 0;
        self.open_place = self.journal_length + 4 + serial.len() as u64;
        self.journal_length = self.open_place + 4;
    }
}

/// Writes a head with count 0 to the start of the buffer. Where the key is shared, one question more is asked and nothing
/// else is different.
pub fn open(settings: &Settings, shared: bool, buffer: &mut [u8]) -> Result<State, Number> {
    settings.good_to_open(shared)?;
    let length = settings.head_length();
    if length > buffer.len() {
        return Err(5);
    }
    settings.write_head(0, &mut buffer[..length]);
    Ok(State::opened(settings))
}

/// Writes what the device signs to the start of the output and returns its length.
pub fn prepare(state: &State, details: &Details, output: &mut [u8]) -> Result<usize, Number> {
    if !state.sound() {
        return Err(6);
    }
    let (kind, counter) = state.accepts(details)?;
    let payload = payload(&state.newest(), details, kind, counter, &state.chain);
    let input = signing_input::<LONGEST_INPUT>(payload.bytes());
    let length = input.bytes().len();
    if length > output.len() {
        return Err(13);
    }
    output[..length].copy_from_slice(input.bytes());
    Ok(length)
}

/// Appends an entry and rewrites the count of the open section. Refused, it changes neither the state nor the buffer.
pub fn issue(state: &mut State, details: &Details, signature: &[u8], buffer: &mut [u8]) -> Result<(), Number> {
    if !state.sound_in(buffer) {
        return Err(6);
    }
    let (kind, counter) = state.accepts(details)?;
    let signature = match signature.len() {
        64 => signature,
        0 => FAILURE,
        _ => return Err(12),
    };
    let payload = payload(&state.newest(), details, kind, counter, &state.chain);
    let form = compact_form(payload.bytes(), signature);
    let form = form.bytes();
    let start = state.journal_length as usize;
    if 2 + form.len() > buffer.len() - start {
        return Err(13);
    }

    let end = start + 2 + form.len();
    buffer[start..start + 2].copy_from_slice(&(form.len() as u16).to_be_bytes());
    buffer[start + 2..end].copy_from_slice(form);
    state.counter = counter;
    state.last_number = details.number;
    state.receipts += 1;
    state.chain = chain_value(form);
    state.journal_length = end as u64;
    state.open_receipts += 1;
    let place = state.open_place as usize;
    buffer[place..place + 4].copy_from_slice(&state.open_receipts.to_be_bytes());
    Ok(())
}

/// Issues the receipts of a list in order, all with a failed device, up to the first that is refused: how many were issued, and
/// the number of the refused one. State and buffer are as the last issued one left them.
pub fn issue_list(state: &mut State, list: &[Details], buffer: &mut [u8]) -> (usize, Result<(), Number>) {
    for (issued, details) in list.iter().enumerate() {
        if let Err(number) = issue(state, details, &[], buffer) {
            return (issued, Err(number));
        }
    }
    (list.len(), Ok(()))
}

/// Appends the pair of a new serial: its section, and an empty section of receipts. Refused, it changes neither the state
/// nor the buffer.
pub fn change(state: &mut State, serial: &[u8], buffer: &mut [u8]) -> Result<(), Number> {
    if !state.sound_in(buffer) {
        return Err(6);
    }
    if !serial_good(serial) {
        return Err(3);
    }
    let place = state.place_of(serial)?;
    let start = state.journal_length as usize;
    if 4 + serial.len() + 4 > buffer.len() - start {
        return Err(13);
    }

    state.add_pair(place, serial);
    let pair = &mut buffer[start..state.journal_length as usize];
    pair.fill(0);
    pair[..4].copy_from_slice(&(serial.len() as u32).to_be_bytes());
    pair[4..4 + serial.len()].copy_from_slice(serial);
    Ok(())
}

/// The first "no" of a take-over, with the index of its entry.
#[derive(Clone, Copy, Debug, PartialEq, Eq)]
pub struct Refused {
    pub number: Number,
    pub index: u32,
}

/// The bytes of a journal that are not read yet.
pub(crate) struct Reader<'a> {
    pub(crate) rest: &'a [u8],
}

impl<'a> Reader<'a> {
    pub(crate) fn take(&mut self, length: usize) -> Option<&'a [u8]> {
        let (taken, rest) = self.rest.split_at_checked(length)?;
        self.rest = rest;
        Some(taken)
    }

    /// A count in four bytes, big-endian.
    fn count(&mut self) -> Option<u32> {
        Some(u32::from_be_bytes(self.take(4)?.try_into().ok()?))
    }

    /// A section of bytes after its count.
    pub(crate) fn section(&mut self) -> Option<&'a [u8]> {
        let length = self.count()?;
        self.take(length as usize)
    }

    /// The compact form of an entry, after its length in two bytes.
    pub(crate) fn entry(&mut self) -> Option<&'a [u8]> {
        let length = u16::from_be_bytes(self.take(2)?.try_into().ok()?);
        self.take(length as usize)
    }

    /// A head that is whole and good by 1 to 3: the settings, and the receipts count.
    fn head(&mut self, key: &[u8; 32], width: u64) -> Option<(Settings, u32)> {
        let csp = self.section().filter(|csp| csp_good(csp))?;
        let id = self.section().filter(|id| id_good(id))?;
        let (serial, receipts) = self.pair()?;
        let settings =
            Settings { csp: csp.try_into().ok()?, id: Name::of(id), serial: Name::of(serial), width, key: *key };
        Some((settings, receipts))
    }

    /// The start of a pair: a good serial, and a whole receipts count.
    pub(crate) fn pair(&mut self) -> Option<(&'a [u8], u32)> {
        let serial = self.section().filter(|serial| serial_good(serial))?;
        Some((serial, self.count()?))
    }
}

/// Reads one entry and adds it to the state: questions 15 to 20. The settings have the serial of its pair.
fn take_entry(reader: &mut Reader, settings: &Settings, aes: &Aes256, state: &mut State) -> Result<(), Refused> {
    let index = state.receipts;
    let no = |number| Err(Refused { number, index });
    let Some(form) = reader.entry() else { return no(15) };
    let Some(receipt) = read_entry(settings, form) else { return no(16) };
    if receipt.number <= state.last_number {
        return no(17);
    }
    if index == 0 && (receipt.kind != Kind::Standard || receipt.amounts != [0; 5]) {
        return no(18);
    }
    if receipt.chain != state.chain {
        return no(19);
    }
    let sum = counter_after(state.counter, receipt.kind, &receipt.amounts);
    if !counter_fits(sum, settings.width) {
        return no(20);
    }
    state.counter = sum as i64;
    if receipt.kind == Kind::Standard {
        let iv = counter_iv(settings.id(), digits(receipt.number as u64).bytes());
        if decrypt_counter(aes, &iv, &receipt.encrypted, settings.width as usize) != state.counter {
            return no(20);
        }
    }
    state.last_number = receipt.number;
    state.chain = chain_value(form);
    state.receipts += 1;
    state.open_receipts += 1;
    state.journal_length += 2 + form.len() as u64;
    Ok(())
}

/// Reads the entries of one section, which have the newest serial of the state, and adds them to it.
fn take_section(reader: &mut Reader, count: u32, aes: &Aes256, state: &mut State) -> Result<(), Refused> {
    let settings = state.newest();
    for _ in 0..count {
        take_entry(reader, &settings, aes, state)?;
    }
    Ok(())
}

/// Reads the start of the next pair and adds it to the state: questions 21, 30 and 31. Returns the receipts count.
fn take_pair(reader: &mut Reader, state: &mut State) -> Result<u32, Refused> {
    let index = state.receipts;
    let no = |number| Refused { number, index };
    let (serial, count) = reader.pair().ok_or(no(21))?;
    let place = state.place_of(serial).map_err(no)?;
    state.add_pair(place, serial);
    Ok(count)
}

/// Checks a whole journal, pair by pair, and returns the state after it.
pub fn take_over(journal: &[u8], key: &[u8; 32], width: u64) -> Result<State, Refused> {
    if !width_good(width) {
        return Err(Refused { number: 4, index: 0 });
    }
    let mut reader = Reader { rest: journal };
    let Some((settings, count)) = reader.head(key, width) else {
        return Err(Refused { number: 14, index: 0 });
    };
    let aes = Aes256::new(key);
    let mut state = State::opened(&settings);
    take_section(&mut reader, count, &aes, &mut state)?;
    while !reader.rest.is_empty() {
        let count = take_pair(&mut reader, &mut state)?;
        take_section(&mut reader, count, &aes, &mut state)?;
    }
    Ok(state)
}

/// Reads the head alone and returns the state of a register without receipts, whatever the head counts.
pub fn check_head(journal: &[u8], key: &[u8; 32], width: u64) -> Result<State, Number> {
    if !width_good(width) {
        return Err(4);
    }
    let (settings, _) = Reader { rest: journal }.head(key, width).ok_or(14u32)?;
    Ok(State::opened(&settings))
}

/// Goes on from a state through so many steps of the journal and returns the state after them. A step is an entry where the
/// open section has one more, and else the start of a pair. At the end of the journal no step changes anything.
pub fn check_steps(state: &State, journal: &[u8], steps: u64) -> Result<State, Refused> {
    let mut count = state.counted_in(journal).map_err(|number| Refused { number, index: 0 })?;
    let mut state = *state;
    let mut reader = Reader { rest: &journal[state.journal_length as usize..] };
    let aes = Aes256::new(&state.key);
    for _ in 0..steps {
        if state.open_receipts < count {
            take_entry(&mut reader, &state.newest(), &aes, &mut state)?;
        } else if !reader.rest.is_empty() {
            count = take_pair(&mut reader, &mut state)?;
        } else {
            break;
        }
    }
    Ok(state)
}

/// The receipt that one compact form spells under the settings of a register.
pub fn read(settings: &Settings, form: &[u8]) -> Result<Receipt, Number> {
    settings.good()?;
    read_entry(settings, form).ok_or(16)
}
