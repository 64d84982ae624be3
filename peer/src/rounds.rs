//! The rounds of the differential run. A round is made from the seed and its number alone, so that it can be repeated.

mod exports;
mod limits;
mod lines;
mod lists;
mod pairs;
mod shared;
mod steps;

use std::ops::Range;

use crate::calls::{Calls, Peer};
use crate::compare::{Compare, Compared, demand};
use crate::filling::fill_width;
use crate::layout::{DETAILS, SETTINGS, SIGNATURE, STATE, details_of, settings_bytes, state_bytes, state_of};
use crate::model::{
    CHAIN, COUNTER, Entry, FIRST_AMOUNT, Given, Journal, NUMBER, PairPlaces, padded_text, pair_places, spelled,
    url_text,
};
use crate::random::Random;
use crate::receipt::{
    AMOUNT_LIMIT, Date, Details, FAILURE, LONGEST_COMPACT, LONGEST_INPUT, LONGEST_PAYLOAD, chain_value,
};
use crate::register::{SERIALS, State};
use crate::sample;
use crate::settings::{Name, Settings};

/// Does one round.
pub fn round(compare: &mut Compare, seed: u64, number: u64) -> Compared<()> {
    let mut round = Round { random: Random::of(seed, number), compare };
    round.compare.version()?;
    round.primitives()?;
    round.base32()?;
    round.settings()?;
    round.opening()?;
    round.order_of_open()?;
    round.last_bytes()?;
    round.bad_ids_with_digits()?;
    round.hash_inputs()?;
    round.key_streams()?;
    round.shared_list()?;
    round.list_from_earlier()?;
    round.order_of_change()?;
    round.serials_to_change_to()?;
    round.places_of_the_count()?;
    round.serials_of_a_state()?;
    for _ in 0..12 {
        round.state_made_by_hand()?;
    }
    round.spoiled_bytes_of_a_state()?;

    let written = round.call_list()?;
    round.taken_over(&written)?;
    for _ in 0..16 {
        round.damaged(&written)?;
    }
    for _ in 0..24 {
        round.rebuilt(&written)?;
    }
    round.wrong_by_design(&written)?;
    round.list_to_the_last_serial()?;
    round.pairs_by_design()?;
    round.sums_at_the_end()?;
    if round.random.once_in(16) {
        round.cut_everywhere(&written)?;
        round.every_bit_of_the_head(&written)?;
    }
    if round.random.once_in(32) {
        round.long_journal()?;
    }
    for _ in 0..4 {
        round.codes_of(&written)?;
    }
    for _ in 0..8 {
        round.free_codes()?;
    }
    round.lines_of(&written)?;
    for _ in 0..6 {
        round.free_lines()?;
    }
    round.line_errors()?;
    round.amounts_at_the_limits()?;
    round.counters_at_the_ends()?;
    round.codes_at_the_limits()?;
    round.lines_at_the_limits()?;
    round.longest_receipts()?;
    round.read_of_each_kind()?;
    for _ in 0..24 {
        round.read_in_any_way(&written)?;
    }
    round.student_errors(&written)?;
    if round.random.once_in(16) {
        round.read_with_every_change(&written)?;
        round.read_under_every_change(&written)?;
        round.lines_of_every_length()?;
        round.lines_with_every_change(&written)?;
    }
    round.lists_by_design()?;
    round.list_with_the_start()?;
    round.lists_among_calls()?;
    round.list_by_hand()?;
    round.heads()?;
    for _ in 0..8 {
        round.calls_and_their_steps()?;
    }
    round.steps_by_design()?;
    round.exports_of(&written)?;
    round.exports_by_design()?;
    round.exports_refused()?;
    round.texts_read()?;
    round.texts_refused()?;
    if round.random.once_in(8) {
        round.long_exports()?;
    }
    if round.random.once_in(16) {
        round.texts_with_every_change()?;
    }
    round.ends_of_the_months()
}

/// A journal that a list of calls wrote, under what, and the receipts in it.
struct Accepted {
    settings: Settings,
    journal: Vec<u8>,
    receipts: Vec<Given>,
}

impl Accepted {
    fn width(&self) -> usize {
        self.settings.width as usize
    }

    /// The pairs in the journal: the serial, and the compact forms.
    fn pairs(&self) -> Vec<(Vec<u8>, Vec<Vec<u8>>)> {
        let form = |entry: &Range<usize>| self.journal[entry.start + 2..entry.end].to_vec();
        let pair = |pair: &PairPlaces| (self.journal[pair.serial()].to_vec(), pair.entries.iter().map(form).collect());
        pair_places(&self.journal).iter().map(pair).collect()
    }

    /// The compact forms in the journal.
    fn forms(&self) -> Vec<Vec<u8>> {
        self.pairs().into_iter().flat_map(|(_, forms)| forms).collect()
    }

    /// The settings of the receipts with this serial.
    fn settings_with(&self, serial: &[u8]) -> Settings {
        Settings { serial: Name::of(serial), ..self.settings }
    }
}

struct Round<'a> {
    random: Random,
    compare: &'a mut Compare,
}

impl Round<'_> {
    /// Random bytes of a length: what lies in a buffer before the call.
    fn garbage(&self, length: usize) -> Vec<u8> {
        self.random.bytes(length)
    }

    /// A length to give for an output that needs `needed` bytes: exact, one short, none, or more.
    fn room(&self, needed: usize) -> usize {
        match self.random.below(5) {
            0 => needed.saturating_sub(1),
            1 => needed + 1 + self.random.below(40),
            2 if self.random.once_in(4) => self.random.below(needed + 1),
            _ => needed,
        }
    }

    /// The same bytes in another length, as 447 or 123 bytes must not be.
    fn other_length(&self, bytes: &[u8]) -> Vec<u8> {
        let length = bytes.len();
        let other = self.random.pick(&[0, 1, length - 1, length + 1, 2 * length]);
        let mut longer = bytes.to_vec();
        longer.resize(other, 0);
        longer
    }

    // ---- primitives

    fn primitives(&mut self) -> Compared<()> {
        for _ in 0..3 {
            let length = self.random.pick(&[0, 1, 55, 56, 57, 63, 64, 65, 119, 120, 128, 5000, self.random.below(600)]);
            let data = self.garbage(length);
            let room = self.random.pick(&[0, 31, 32, 32, 32, 33, 64]);
            let mut output = self.garbage(room);
            self.compare.sha256(&data, &mut output)?;
        }
        for _ in 0..3 {
            let url = self.random.pick(&[0, 1, 0, 1, 2, 256, u32::MAX]);
            let length = self.random.pick(&[0, 1, 2, 3, 8, 34, 64, self.random.below(400), self.random.below(5000)]);
            let data = self.garbage(length);
            let mut text = if url == 0 { padded_text(&data) } else { url_text(&data) };
            let room = self.room(text.len());
            let mut output = self.garbage(room);
            self.compare.base64(url, &data, &mut output)?;

            match self.random.below(4) {
                0 => (),
                1 => self.respell_base64(&mut text),
                2 => self.damage_bytes(&mut text),
                _ => text = self.letters(),
            }
            let room = self.room(length);
            let mut output = self.garbage(room);
            self.compare.unbase64(url, &text, &mut output)?;
        }
        Ok(())
    }

    /// Letters of BASE64 in any order, with some padding.
    fn letters(&self) -> Vec<u8> {
        let length = self.random.below(14);
        let mut text: Vec<u8> = (0..length).map(|_| self.random.pick(b"ABQgwxyz0189+/-_=")).collect();
        text.resize(length + self.random.below(4), b'=');
        text
    }

    /// One thing wrong with a text of BASE64 that is easily let through.
    fn respell_base64(&self, text: &mut Vec<u8>) {
        const ORDER: &[u8] = b"ABCDEFGHIJKLMNOPQRSTUVWXYZabcdefghijklmnopqrstuvwxyz0123456789+/";
        let letters = text.iter().rposition(|&byte| byte != b'=').map_or(0, |place| place + 1);
        match self.random.below(7) {
            // other bits in the last letter: unused ones where the group isn't whole
            0 | 1 if letters > 0 => {
                let value = ORDER.iter().position(|&letter| letter == text[letters - 1]).unwrap_or(62);
                text[letters - 1] = ORDER[value ^ self.random.pick(&[1, 2, 3, 4, 8, 15])];
            }
            2 => text.truncate(letters),
            3 => text.push(b'='),
            4 => {
                text.pop();
            }
            5 if letters > 0 => {
                let place = self.random.below(letters);
                text[place] = self.random.pick(b"+/-_=.,@[`{ \n\0\x80\xff");
            }
            _ => {
                let place = self.random.below(text.len() + 1);
                text.insert(place, self.random.pick(b"A=\n \r"));
            }
        }
    }

    // ---- settings and open

    fn settings(&mut self) -> Compared<()> {
        for _ in 0..6 {
            let mut csp = sample::csp(&self.random).to_vec();
            let mut id = sample::id(&self.random);
            let mut serial = sample::serial(&self.random);
            let mut width = self.random.between(5, 8) as usize;
            let mut key = sample::key(&self.random).to_vec();
            let mut room = SETTINGS;
            // none, one or two things wrong
            for _ in 0..self.random.below(3) {
                match self.random.below(10) {
                    0 => csp = sample::bad_csp(&self.random).to_vec(),
                    1 => csp = self.random.pick(&[&b""[..], b"AT", b"AT00", b"A", b"ATAT0"]).to_vec(),
                    2 => {
                        let place = self.random.below(id.len());
                        id[place] = sample::no_id_byte(&self.random);
                    }
                    3 => id = vec![b'~'; self.random.pick(&[0, 33, 34, 256 + 3, 65_536 + 1])],
                    4 => {
                        let place = self.random.below(serial.len());
                        serial[place] = sample::no_serial_byte(&self.random);
                    }
                    5 => serial = vec![b'a'; self.random.pick(&[0, 33, 64, 256 + 3])],
                    6 => width = sample::bad_width(&self.random) as usize,
                    7 => key = vec![9; self.random.pick(&[0, 1, 31, 33, 64])],
                    _ => room = self.random.pick(&[0, 1, 122, 124, 447]),
                }
                if id.is_empty() || serial.is_empty() {
                    break;
                }
            }
            let mut output = self.garbage(room);
            self.compare.settings(&csp, &id, &serial, width, &key, &mut output)?;
        }
        Ok(())
    }

    fn opening(&mut self) -> Compared<()> {
        for _ in 0..6 {
            let mut settings = sample::settings(&self.random);
            let head = settings.head_length();
            let wrong = self.random.pick(&[0, 1, 1, 2]);
            if wrong > 0 {
                sample::spoil_settings(&self.random, &mut settings);
            }
            if wrong > 1 {
                match self.random.below(2) {
                    0 => settings.csp = sample::bad_csp(&self.random),
                    _ => settings.width = sample::bad_width(&self.random),
                }
            }
            let mut bytes = settings_bytes(&settings).to_vec();
            if self.random.once_in(8) {
                bytes = self.other_length(&bytes);
            }
            let room = match self.random.below(4) {
                0 => head - 1,
                1 => self.random.pick(&[0, 4, head - 4, head + 1]),
                2 => head + self.random.below(300),
                _ => head,
            };
            let journal = self.garbage(room);
            let mut state = self.garbage(STATE);
            if self.random.once_in(8) {
                state = self.other_length(&state);
            }
            self.opened_both_ways(&bytes, &journal, &state)?;
        }
        Ok(())
    }

    // ---- a list of calls

    /// Open and a list of calls.
    fn call_list(&mut self) -> Compared<Accepted> {
        let settings = sample::settings(&self.random);
        self.call_list_of(settings, false)
    }

    /// Open, for a shared key or not, and a list of calls, refused ones among them; then the journal is taken over and
    /// written again.
    fn call_list_of(&mut self, given: Settings, shared: bool) -> Compared<Accepted> {
        let mut settings = [0; SETTINGS];
        let number = self.compare.settings(
            &given.csp,
            given.id(),
            given.serial(),
            given.width as usize,
            &given.key,
            &mut settings,
        )?;
        let room = given.head_length() + self.random.pick(&[1000, 2000, 4000, self.random.below(3000)]);
        let mut journal = self.garbage(room);
        let mut state = self.garbage(STATE);
        let opened = self.opened(shared, &settings, &mut journal, &mut state)?;
        demand((number, opened) == (0, 0), "good settings are opened", &journal)?;

        let mut receipts = Vec::new();
        let changes = self.random.pick(&[0, 3, 5]);
        for _ in 0..1 + self.random.below(14) {
            if changes > 0 && self.random.once_in(changes) {
                self.next_change(&mut state, &mut journal)?;
            } else {
                receipts.extend(self.next_of_a_list(&mut state, &mut journal)?);
            }
        }

        self.accepted(given, &state, journal, receipts)
    }

    /// What a list of calls left: the journal is taken over with the same state, and written again.
    fn accepted(
        &mut self,
        settings: Settings,
        state: &[u8],
        mut journal: Vec<u8>,
        receipts: Vec<Given>,
    ) -> Compared<Accepted> {
        journal.truncate(state_of(state).journal_length as usize);
        let mut taken = self.garbage(STATE);
        let answer = self.taken(&journal, &settings.key, settings.width as usize, &mut taken)?;
        demand(answer.number == 0, "the journal of a list is accepted", &journal)?;
        demand(taken == state, "the state taken over is the one of the list", &journal)?;
        let accepted = Accepted { settings, journal, receipts };
        self.written_again(&accepted)?;
        Ok(accepted)
    }

    /// One more receipt: what Issue was given, where it is not refused.
    fn next_of_a_list(&mut self, state: &mut [u8], journal: &mut [u8]) -> Compared<Option<Given>> {
        let held = state_of(state);
        let mut details = sample::details(&self.random, &held);
        for _ in 0..self.random.pick(&[0, 0, 0, 1, 1, 2]) {
            sample::spoil_details(&self.random, &mut details, &held);
        }
        let signature =
            if self.random.once_in(8) { sample::bad_signature(&self.random) } else { sample::signature(&self.random) };
        self.prepared(state, &details)?;
        if self.random.once_in(4) {
            self.issued_into_room(state, &details, &signature, journal)?;
        }
        let number = self.compare.issue(state, &details, &signature, journal)?;
        self.said(state)?;
        Ok((number == 0).then_some((details, signature)))
    }

    /// Prepare into outputs of some lengths.
    fn prepared(&mut self, state: &[u8], details: &Details) -> Compared<()> {
        let needed = Peer.prepare(state, details, &mut [0; LONGEST_INPUT]).length;
        let room = self.room(needed);
        let mut output = self.garbage(room);
        self.compare.prepare(state, details, &mut output)?;
        Ok(())
    }

    /// Issue into a copy of the buffer that is exactly long enough, or one byte short.
    fn issued_into_room(&mut self, state: &[u8], details: &Details, signature: &[u8], journal: &[u8]) -> Compared<()> {
        let mut after = state.to_vec();
        let mut wide = journal.to_vec();
        wide.resize(journal.len() + 2 + LONGEST_COMPACT, 0x5a);
        if Peer.issue(&mut after, details, signature, &mut wide) != 0 {
            return Ok(());
        }
        let end = state_of(&after).journal_length as usize;
        let held = state_of(state).journal_length as usize;
        for length in [end, end - 1, end + 1, held, held + 1] {
            let mut buffer = wide.clone();
            buffer.truncate(length);
            let mut copy = state.to_vec();
            self.compare.issue(&mut copy, details, signature, &mut buffer)?;
        }
        Ok(())
    }

    /// Writes an accepted journal again, pair by pair and entry by entry, as demand 3 says: a twin register changes to each
    /// later serial and issues what Read gives of each receipt. Returns the states that Open and each of these calls left.
    fn written_again(&mut self, accepted: &Accepted) -> Compared<Vec<Vec<u8>>> {
        let mut journal = self.garbage(accepted.journal.len());
        let mut state = [0; STATE];
        self.compare.open(&settings_bytes(&accepted.settings), &mut journal, &mut state)?;
        let mut after = vec![state.to_vec()];
        let mut receipts = accepted.receipts.iter();
        for (which, (serial, forms)) in accepted.pairs().iter().enumerate() {
            if which > 0 {
                let number = self.compare.change(&mut state, serial, &mut journal)?;
                demand(number == 0, "a serial of an accepted journal is changed to", &accepted.journal)?;
                after.push(state.to_vec());
            }
            let settings = self.settings_said(&state, which)?;
            demand(settings == settings_bytes(&accepted.settings_with(serial)), "a pair has its settings", &state)?;
            for (form, given) in forms.iter().zip(receipts.by_ref()) {
                let (details, signature) = self.read_back(&settings, form, given)?;
                let number = self.compare.issue(&mut state, &details, &signature, &mut journal)?;
                demand(number == 0, "a receipt of an accepted journal is issued", &accepted.journal)?;
                after.push(state.to_vec());
            }
        }
        demand(accepted.forms().len() == accepted.receipts.len(), "a receipt has one entry", &accepted.journal)?;
        demand(journal == accepted.journal, "the journal written again is the same", &accepted.journal)?;
        let mut taken = self.garbage(STATE);
        let answer = self.taken(&journal, &accepted.settings.key, accepted.width(), &mut taken)?;
        demand(answer.number == 0 && taken == state, "the state after writing again is the same", &journal)?;
        Ok(after)
    }

    /// What Read gives of a receipt, which must be what Issue was given.
    fn read_back(&mut self, settings: &[u8], form: &[u8], given: &Given) -> Compared<Given> {
        let mut details: [u8; DETAILS] = self.random.array();
        let mut signature: [u8; SIGNATURE] = self.random.array();
        let before = signature;
        let read = self.compare.read(settings, form, &mut details, &mut signature)?;
        let receipt = (details_of(&details), signature[..read.length].to_vec());
        demand(read.number == 0 && receipt == *given, "a receipt is read as it was issued", form)?;
        demand(read.length != 0 || signature == before, "a signature that is not there is not written", form)?;
        Ok(receipt)
    }

    // ---- states made by hand

    /// A state made by hand, sound or not, through every call that takes one.
    fn state_made_by_hand(&mut self) -> Compared<()> {
        let mut state = sample::sound_state(&self.random, 300);
        let mut details = sample::details(&self.random, &state);
        let signature = sample::signature(&self.random);
        let room = state.journal_length as usize + self.random.pick(&[0, 1, 200, 2 + LONGEST_COMPACT, 400]);
        let journal = self.garbage(room);

        if self.random.once_in(3) {
            for _ in 0..1 + self.random.below(2) {
                sample::spoil_details(&self.random, &mut details, &state);
            }
        }
        if self.random.once_in(3) {
            sample::spoil_state(&self.random, &mut state, room);
        } else if self.random.once_in(8) {
            // the journal's length is not asked by Prepare, but for the head
            state.journal_length = self.random.pick(&[u64::MAX, 1 << 63, room as u64 + 1]);
        }
        let mut bytes = state_bytes(&state).to_vec();
        if self.random.once_in(10) {
            bytes = self.other_length(&bytes);
        }
        self.said(&bytes)?;
        self.changed_by_hand(&state, &bytes, &journal)?;
        self.prepared(&bytes, &details)?;
        if self.random.once_in(2) {
            self.issued_into_room(&bytes, &details, &signature, &journal)?;
        }
        let signature = if self.random.once_in(10) { sample::bad_signature(&self.random) } else { signature };
        self.issued(bytes, &details, &signature, journal)
    }

    fn issued(
        &mut self,
        mut state: Vec<u8>,
        details: &Details,
        signature: &[u8],
        mut journal: Vec<u8>,
    ) -> Compared<()> {
        self.compare.issue(&mut state, details, signature, &mut journal)?;
        Ok(())
    }

    /// A sound state with one bit or byte of its 447 changed, and 447 random bytes.
    fn spoiled_bytes_of_a_state(&mut self) -> Compared<()> {
        for _ in 0..6 {
            let state = sample::sound_state(&self.random, 20);
            let details = sample::details(&self.random, &state);
            let mut bytes = state_bytes(&state).to_vec();
            match self.random.below(4) {
                0 => bytes = self.garbage(STATE),
                1 => {
                    let place = self.random.below(STATE);
                    bytes[place] = self.random.byte();
                }
                _ => {
                    let bit = self.random.below(8 * STATE);
                    bytes[bit / 8] ^= 1 << (bit % 8);
                }
            }
            self.said(&bytes)?;
            self.prepared(&bytes, &details)?;
            let journal = self.garbage(500);
            self.changed_by_hand(&state, &bytes, &journal)?;
            self.issued(bytes, &details, &[], journal)?;
        }
        Ok(())
    }

    // ---- journals taken over

    fn take_over(&mut self, accepted: &Accepted, journal: &[u8]) -> Compared<()> {
        let mut state = self.garbage(STATE);
        self.taken(journal, &accepted.settings.key, accepted.width(), &mut state)?;
        Ok(())
    }

    /// An accepted journal under other keys, widths, lengths of key and state.
    fn taken_over(&mut self, accepted: &Accepted) -> Compared<()> {
        let journal = &accepted.journal;
        let key = accepted.settings.key;
        for width in [5, 6, 7, 8, sample::bad_width(&self.random) as usize] {
            let mut state = self.garbage(STATE);
            self.taken(journal, &key, width, &mut state)?;
        }
        let mut other = key;
        other[self.random.below(32)] ^= 1 << self.random.below(8);
        let mut state = self.garbage(STATE);
        self.taken(journal, &other, accepted.width(), &mut state)?;
        let wrong = self.random.pick(&[0, 1, 31, 33]);
        self.taken(journal, &vec![9; wrong], accepted.width(), &mut state)?;
        let mut state = self.other_length(&state);
        let width = self.random.pick(&[accepted.width(), 4]);
        self.taken(journal, &key, width, &mut state)?;
        Ok(())
    }

    /// One or more changes to any bytes.
    fn damage_bytes(&self, bytes: &mut Vec<u8>) {
        if bytes.is_empty() {
            bytes.push(self.random.byte());
            return;
        }
        let place = self.random.below(bytes.len());
        match self.random.below(7) {
            0 | 1 => bytes[place] ^= 1 << self.random.below(8),
            2 => bytes[place] = self.random.byte(),
            3 => bytes[place] = self.random.pick(b"_.=-,0T\0\xff"),
            4 => bytes.insert(place, self.random.pick(b"_.=A0\0")),
            5 => {
                bytes.remove(place);
            }
            _ => bytes.truncate(place),
        }
    }

    /// An accepted journal, damaged.
    fn damaged(&mut self, accepted: &Accepted) -> Compared<()> {
        let journal = self.damaged_journal(accepted);
        self.take_over(accepted, &journal)
    }

    /// The bytes of an accepted journal, damaged.
    fn damaged_journal(&self, accepted: &Accepted) -> Vec<u8> {
        let mut journal = accepted.journal.clone();
        let pairs = pair_places(&journal);
        let entries: Vec<usize> = pairs.iter().flat_map(|pair| &pair.entries).map(|entry| entry.start).collect();
        match self.random.below(10) {
            // a count of the head or of a pair, or a byte of the head
            0 => {
                let pair = &pairs[self.random.below(pairs.len())];
                let place = self.random.pick(&[0, 7, pair.start, pair.count]);
                let count = u32::from_be_bytes(*journal[place..].first_chunk().expect("a count"));
                let other = self.random.pick(&[
                    count.wrapping_add(1),
                    count.wrapping_sub(1),
                    0,
                    1,
                    32,
                    33,
                    u32::MAX,
                    count | 0x0100_0000,
                    count | 0x8000_0000,
                ]);
                journal[place..place + 4].copy_from_slice(&other.to_be_bytes());
            }
            1 => {
                let place = self.random.below(pairs[0].count + 4);
                journal[place] = self.random.pick(b"_ \0a0A\x7f\xff");
            }
            // bytes after the last entry
            2 => {
                let after = self.random.pick(&[1, 2, 3, 4, 300]);
                journal.extend(self.garbage(after));
            }
            // the length of an entry
            3 if !entries.is_empty() => {
                let place = entries[self.random.below(entries.len())];
                let length = u16::from_be_bytes([journal[place], journal[place + 1]]);
                let rest = (journal.len() - place - 2) as u16;
                let other = self.random.pick(&[
                    length.wrapping_add(1),
                    length.wrapping_sub(1),
                    0,
                    u16::MAX,
                    rest,
                    rest.wrapping_add(1),
                    length ^ 0x100,
                ]);
                journal[place..place + 2].copy_from_slice(&other.to_be_bytes());
            }
            // a byte cut out or put in and the entry's length made right
            4 if !entries.is_empty() => {
                let place = entries[self.random.below(entries.len())];
                let length = u16::from_be_bytes([journal[place], journal[place + 1]]) as usize;
                let mut form = journal[place + 2..place + 2 + length].to_vec();
                self.damage_bytes(&mut form);
                let mut entry = (form.len() as u16).to_be_bytes().to_vec();
                entry.extend(form);
                journal.splice(place..place + 2 + length, entry);
            }
            // a cut
            5 => journal.truncate(self.random.below(accepted.journal.len() + 1)),
            6 if !entries.is_empty() => {
                let place = entries[self.random.below(entries.len())];
                journal.truncate(place + self.random.below(3));
            }
            7 => journal = self.random_journal(),
            _ => {
                for _ in 0..1 + self.random.below(2) {
                    self.damage_bytes(&mut journal);
                }
            }
        }
        journal
    }

    /// A head or a part of one and random bytes.
    fn random_journal(&self) -> Vec<u8> {
        let settings = sample::settings(&self.random);
        let mut journal = vec![0; settings.head_length()];
        settings.write_head(self.random.pick(&[0, 1, 2, u32::MAX]), &mut journal);
        let after = self.random.pick(&[0, 1, 2, 3, 300]);
        journal.extend(self.garbage(after));
        if self.random.once_in(3) {
            journal.truncate(self.random.below(journal.len() + 1));
        }
        journal
    }

    fn cut_everywhere(&mut self, accepted: &Accepted) -> Compared<()> {
        for length in 0..accepted.journal.len() {
            self.take_over(accepted, &accepted.journal[..length])?;
        }
        Ok(())
    }

    fn every_bit_of_the_head(&mut self, accepted: &Accepted) -> Compared<()> {
        for bit in 0..8 * accepted.settings.head_length() {
            let mut journal = accepted.journal.clone();
            journal[bit / 8] ^= 1 << (bit % 8);
            self.take_over(accepted, &journal)?;
        }
        Ok(())
    }

    /// An accepted journal with some of its parts changed, and mostly chain and counters of what follows made right
    /// again, so that later questions are reached.
    fn rebuilt(&mut self, accepted: &Accepted) -> Compared<()> {
        let bytes = self.rebuilt_journal(accepted).bytes();
        self.take_over(accepted, &bytes)
    }

    fn rebuilt_journal(&self, accepted: &Accepted) -> Journal {
        let mut journal = Journal::of(&accepted.journal);
        if journal.entries().is_empty() {
            return journal;
        }
        let mut first = journal.entries().len();
        for _ in 0..self.random.pick(&[1, 1, 1, 2]) {
            let length = journal.entries().len();
            let index = self.random.below(length);
            let (pair, place) = journal.place(index);
            first = first.min(index);
            match self.random.below(12) {
                // swapped, dropped or doubled
                0 => {
                    let other = self.random.below(length);
                    first = first.min(other);
                    let copy = journal.entry(index).clone();
                    *journal.entry(index) = std::mem::replace(journal.entry(other), copy);
                }
                1 if length > 1 => {
                    journal.pairs[pair].entries.remove(place);
                    journal.pairs[pair].count -= self.random.pick(&[0, 1, 1]);
                }
                2 => {
                    let copy = journal.entry(index).clone();
                    journal.pairs[pair].entries.insert(place, copy);
                    journal.pairs[pair].count += self.random.pick(&[0, 1, 1]);
                }
                // signed again
                3 => journal.entry(index).signature = self.random.pick(&[&[3; 64][..], FAILURE]).to_vec(),
                4 => self.respell_compact(journal.entry(index)),
                5 | 6 => self.say_otherwise(journal.entry(index)),
                _ => self.respell_field(journal.entry(index)),
            }
        }
        // the chain of the changed entry itself, too, but for a change of that very field
        let from = first + self.random.below(2);
        match self.random.below(8) {
            0 => (),
            1 | 2 => journal.chain_right(from),
            _ => {
                journal.counters_right(from, &accepted.settings.key, accepted.width());
                journal.chain_right(from);
            }
        }
        journal
    }

    /// Another spelling of one field, mostly a wrong one.
    fn respell_field(&self, entry: &mut Entry) {
        if std::mem::replace(&mut entry.respelled, true) {
            return;
        }
        let place = self.random.below(15);
        match place {
            0 => {
                let csp = entry.fields[0].split_off(3);
                let csp = &csp[..];
                let other = [csp[0] ^ 1, csp[1], csp[2]];
                entry.fields[0] = match self.random.below(7) {
                    0 => [b"R2-", csp].concat(),
                    1 => [b"r1-", csp].concat(),
                    2 => [b"R1_", csp].concat(),
                    3 => [b"R1-", &other[..]].concat(),
                    4 => [b"R1-", csp, b"0"].concat(),
                    5 => csp.to_vec(),
                    _ => b"R1-".to_vec(),
                };
            }
            // ID and serial: another, a part, more
            1 | 10 => {
                let field = &mut entry.fields[place];
                let last = field.len() - 1;
                match self.random.below(5) {
                    0 => field[last] ^= 1,
                    1 => {
                        field.pop();
                    }
                    2 => field.push(b'0'),
                    3 => field.make_ascii_uppercase(),
                    _ => field.clear(),
                }
            }
            NUMBER => {
                let number = String::from_utf8(entry.fields[NUMBER].clone()).expect("digits");
                let value: u128 = number.parse().expect("digits");
                entry.fields[NUMBER] = match self.random.below(12) {
                    0 => "0".to_owned(),
                    1 => format!("0{number}"),
                    2 => format!("+{number}"),
                    3 => format!("-{number}"),
                    4 => format!(" {number}"),
                    5 => String::new(),
                    6 => "4294967296".to_owned(),
                    7 => "4294967295".to_owned(),
                    8 => (value + (1 << 32)).to_string(),
                    9 => (value + (1 << 64)).to_string(),
                    10 => number.replacen(|_| true, self.random.pick(&["/", ":", "a", "00"]), 1),
                    _ => "9".repeat(self.random.pick(&[9, 10, 11, 19, 20, 40])),
                }
                .into_bytes();
            }
            3 => self.respell_date(&mut entry.fields[3]),
            4..=8 => self.respell_amount(&mut entry.fields[place]),
            COUNTER => self.respell_counter(&mut entry.fields[COUNTER]),
            CHAIN => self.respell_chain(&mut entry.fields[CHAIN]),
            12 => {
                let field = self.random.below(12);
                if self.random.once_in(2) {
                    entry.fields.remove(field);
                } else {
                    let other = self.random.pick(&[&b""[..], b"0", b"0,00"]).to_vec();
                    entry.fields.insert(field, other);
                }
            }
            13 => {
                let other = self.random.pick(&[&b""[..], b"0", b"0,00"]).to_vec();
                entry.fields.push(other);
            }
            _ => entry.lead = self.random.pick(&[&b""[..], b"__", b"-", b" _"]).to_vec(),
        }
    }

    fn respell_date(&self, field: &mut Vec<u8>) {
        let two = |field: &mut Vec<u8>, place: usize, text: &[u8; 2]| field[place..place + 2].copy_from_slice(text);
        match self.random.below(12) {
            0 => field[10] = self.random.pick(b"Dt :-_"),
            1 => {
                let month = self.random.pick(&[b"00", b"13", b"99", b"1a", b":0"]);
                two(field, 5, month);
            }
            2 => {
                let day = self.random.pick(&[b"00", b"29", b"30", b"31", b"32", b"3:", b"/0"]);
                two(field, 8, day);
            }
            3 => {
                let hour = self.random.pick(&[b"24", b"23", b"2:", b"99"]);
                two(field, 11, hour);
            }
            4 => {
                let minute = self.random.pick(&[b"60", b"59", b"5:", b"99"]);
                two(field, 14, minute);
            }
            5 => {
                let second = self.random.pick(&[b"60", b"59", b"5:", b"99"]);
                two(field, 17, second);
            }
            6 => {
                let century = self.random.pick(&[b"19", b"21", b"00", b"99", b"2a"]);
                two(field, 0, century);
            }
            7 => {
                let year = self.random.pick(&[b"00", b"99", b"16", b"17"]);
                two(field, 2, year);
                field[5..10].copy_from_slice(b"02-29");
            }
            8 => {
                let place = self.random.pick(&[4, 7, 13, 16]);
                field[place] = self.random.pick(b"-:T/ 0");
            }
            9 => field.push(self.random.pick(b"0Z ")),
            10 => {
                field.pop();
            }
            _ => {
                let place = self.random.below(19);
                field[place] = self.random.pick(b"/:0129");
            }
        }
    }

    fn respell_amount(&self, field: &mut Vec<u8>) {
        let text = String::from_utf8(field.clone()).unwrap_or_default();
        let negative = text.starts_with('-');
        let unsigned = text.trim_start_matches('-');
        let sign = if negative { "-" } else { "" };
        *field = match self.random.below(16) {
            0 => "-0,00".to_owned(),
            1 => format!("{sign}0{unsigned}"),
            2 => format!("+{unsigned}"),
            3 => format!("--{unsigned}"),
            4 => text.replace(',', "."),
            5 => text.replace(',', ""),
            6 => format!("{text}0"),
            7 => text[..text.len().saturating_sub(1)].to_owned(),
            8 => format!("{sign}1000000000,00"),
            9 => format!("{sign}{},00", "9".repeat(self.random.pick(&[9, 10, 18, 20, 40]))),
            10 => String::new(),
            11 => format!("{sign},00"),
            12 => format!("{sign}0,0{}", self.random.pick(&["/", ":", "a", " "])),
            13 => format!("{sign}{},00", self.random.pick(&["/", ":", "a", " ", "1 ", "0x1"])),
            14 => format!("{sign}00,00"),
            _ => self.random.pick(&["-", ",", "0", "0,", "0,0", "0,000", "-0,0", "0,-1", "STO"]).to_owned(),
        }
        .into_bytes();
    }

    fn respell_counter(&self, field: &mut Vec<u8>) {
        match self.random.below(6) {
            0 => self.respell_base64(field),
            1 => {
                let width = self.random.pick(&[0, 1, 3, 4, 5, 6, 7, 8, 9, 16]);
                *field = padded_text(&self.garbage(width));
            }
            2 => {
                let other: &[&[u8]] =
                    &[b"U1RP", b"VFJB", b"U1RO", b"VFJA", b"u1rp", b"vfjb", b"STO", b"TRA", b"", b"===="];
                *field = self.random.pick(other).to_vec();
            }
            3 => {
                let place = self.random.below(field.len().max(1));
                if let Some(byte) = field.get_mut(place) {
                    *byte = self.random.pick(b"-_ \n=A");
                }
            }
            4 => field.retain(|&byte| byte != b'='),
            _ => field.extend_from_slice(b"AAAA"),
        }
    }

    fn respell_chain(&self, field: &mut Vec<u8>) {
        match self.random.below(6) {
            0 => {
                let place = self.random.below(field.len());
                field[place] = self.random.pick(b"AB01+/-_=");
            }
            1 => field.retain(|&byte| byte != b'='),
            2 => {
                let length = self.random.pick(&[0, 7, 8, 8, 9, 32]);
                *field = padded_text(&self.garbage(length));
            }
            _ => self.respell_base64(field),
        }
    }

    /// Another form of header, dots or letters of the compact form.
    fn respell_compact(&self, entry: &mut Entry) {
        let elements = [entry.header.clone(), url_text(&entry.payload()), url_text(&entry.signature)];
        let [mut header, mut payload, mut signature] = elements;
        let mut raw = None;
        match self.random.below(11) {
            // longer than any payload or signature, up to what a length can say
            10 => {
                let length = self.random.pick(&[LONGEST_PAYLOAD + 1, 1_000, 48_000]);
                payload = url_text(&self.garbage(length));
                if self.random.once_in(2) {
                    signature = url_text(&self.garbage(1_000));
                }
            }
            0 => {
                let other: [&[u8]; 6] = [
                    b"eyJhbGciOiJFUzM4NCJ9",
                    b"eyJhbGciOiJFUzI1NiJ8",
                    b"eyJhbGciOiJFUzI1NiJ9Cg",
                    b"eyJhbGciOiJub25lIn0",
                    b"",
                    b"EYJHBGCIOIJFUZI1NIJ9",
                ];
                header = self.random.pick(&other).to_vec();
            }
            1 => self.respell_base64(&mut payload),
            // stray bits in the last letter of a signature, and the like
            2 | 3 => self.respell_base64(&mut signature),
            4 => {
                let length = self.random.pick(&[0, 1, 33, 34, 35, 48, 63, 65, 66, 96]);
                signature = url_text(&self.garbage(length));
            }
            5 => {
                let mut text = FAILURE.to_vec();
                match self.random.below(3) {
                    0 => text[self.random.below(FAILURE.len())] ^= 1 << self.random.below(7),
                    1 => text = b"safety device failure".to_vec(),
                    _ => text.make_ascii_lowercase(),
                }
                signature = url_text(&text);
            }
            6 => raw = Some([&header[..], &payload, &signature, b""].join(&b'.')),
            7 => raw = Some([&header[..], &payload].join(&b'.')),
            8 => raw = Some([&b""[..], &header, &payload, &signature].join(&b'.')),
            _ => {
                signature = padded_text(&entry.signature);
                if self.random.once_in(2) {
                    signature.retain(|&byte| byte != b'=');
                }
            }
        }
        entry.raw = Some(raw.unwrap_or_else(|| [header, payload, signature].join(&b'.')));
    }

    /// Another receipt, well spelled.
    fn say_otherwise(&self, entry: &mut Entry) {
        if entry.respelled {
            return;
        }
        match self.random.below(5) {
            0 => entry.fields[NUMBER] = self.random.between(1, 40).to_string().into_bytes(),
            1 => {
                let date = sample::date(&self.random);
                entry.fields[3] = format!(
                    "{:04}-{:02}-{:02}T{:02}:{:02}:{:02}",
                    date.year, date.month, date.day, date.hour, date.minute, date.second
                )
                .into_bytes();
            }
            2 => {
                let amount = sample::amount(&self.random);
                entry.fields[FIRST_AMOUNT + self.random.below(5)] = spelled(amount);
            }
            3 => {
                let kind: [&[u8]; 3] = [b"U1RP", b"VFJB", b"AAAAAAA="];
                entry.fields[COUNTER] = self.random.pick(&kind).to_vec();
            }
            _ => entry.fields[CHAIN] = padded_text(&self.garbage(8)),
        }
    }

    /// Journals of the peer's own parts with one thing wrong, for 16 to 20 each.
    fn wrong_by_design(&mut self, accepted: &Accepted) -> Compared<()> {
        let (key, width) = (accepted.settings.key, accepted.width());
        let good = self.built_in_pairs(accepted, 3);
        let bytes = good.bytes();
        self.take_over(accepted, &bytes)?;

        // 17: numbers that stay or fall
        let mut journal = good.clone();
        journal.entry(2).fields[NUMBER] = journal.entry(self.random.below(2)).fields[NUMBER].clone();
        journal.counters_right(2, &key, width);
        journal.chain_right(2);
        let bytes = journal.bytes();
        self.take_over(accepted, &bytes)?;

        // 18: the first one another kind, or with amounts whose sum is 0
        let mut journal = good.clone();
        match self.random.below(3) {
            0 => journal.entry(0).fields[COUNTER] = b"U1RP".to_vec(),
            1 => journal.entry(0).fields[COUNTER] = b"VFJB".to_vec(),
            _ => {
                journal.entry(0).fields[FIRST_AMOUNT] = b"0,01".to_vec();
                journal.entry(0).fields[FIRST_AMOUNT + 4] = b"-0,01".to_vec();
            }
        }
        journal.counters_right(0, &key, width);
        journal.chain_right(0);
        let bytes = journal.bytes();
        self.take_over(accepted, &bytes)?;

        // 19: a chain field over another text, the entries after it right
        let mut journal = good.clone();
        let place = self.random.below(3);
        let (payload, id) = (journal.entry(0).payload(), journal.id.clone());
        let printed = journal.entry(0).code();
        let signed = journal.entry(0).form();
        let signed = signed[..signed.len() - 1].to_vec();
        let text = self.random.pick(&[&payload[..], &printed, &signed, &id, b""]);
        let mut value = chain_value(text);
        if place == 0 || self.random.once_in(3) {
            value = chain_value(&if place == 0 { id } else { journal.entry(place - 1).form() });
            value[self.random.below(8)] ^= 1 << self.random.below(8);
        }
        journal.entry(place).fields[CHAIN] = padded_text(&value);
        journal.chain_right(place + 1);
        let bytes = journal.bytes();
        self.take_over(accepted, &bytes)?;

        // 20: the counter before the receipt, or another one, the entries after it right
        let mut journal = good.clone();
        let mut before = good.clone();
        before.entry(2).fields[FIRST_AMOUNT..FIRST_AMOUNT + 5].fill(b"0,00".to_vec());
        before.counters_right(2, &key, width);
        journal.entry(2).fields[COUNTER] = before.entry(2).fields[COUNTER].clone();
        if self.random.once_in(2) {
            let mut encrypted = self.garbage(width);
            encrypted[0] ^= 1;
            journal.entry(2).fields[COUNTER] = padded_text(&encrypted);
        }
        journal.chain_right(3);
        let bytes = journal.bytes();
        self.take_over(accepted, &bytes)?;

        // 16: a thing of the second receipt respelled, all after it right
        let mut journal = good;
        self.respell_field(journal.entry(1));
        journal.chain_right(2);
        let bytes = journal.bytes();
        self.take_over(accepted, &bytes)
    }

    /// A valid journal of so many standard receipts, made of parts.
    fn built(&self, accepted: &Accepted, entries: usize) -> Journal {
        let date = Date { year: 2024, month: 2, day: 29, hour: 23, minute: 59, second: 59 };
        let receipts: Vec<Given> = (0..entries)
            .map(|i| {
                let number = (1000 * i + 1 + self.random.below(900)) as u32;
                let amounts = std::array::from_fn(|_| if i == 0 { 0 } else { 1 + self.random.below(10_000) as i64 });
                (Details { number, date, amounts, kind: 0 }, sample::signature(&self.random))
            })
            .collect();
        Journal::with(&accepted.settings, &receipts)
    }

    /// The same in pairs: a certificate is changed before any of the receipts.
    fn built_in_pairs(&self, accepted: &Accepted, entries: usize) -> Journal {
        let mut journal = self.built(accepted, entries);
        let serials = sample::serials(&self.random, accepted.settings.serial(), SERIALS);
        for serial in &serials[1..1 + self.random.pick(&[0, 1, 2, SERIALS - 1])] {
            self.split(&mut journal, serial);
        }
        journal.all_right(0, &accepted.settings);
        journal
    }

    /// Width 5 at both ends: a sum that just fits, and sums over the width that come back, in a standard receipt or a
    /// cancellation.
    fn sums_at_the_end(&mut self) -> Compared<()> {
        let settings = Settings { width: 5, ..sample::settings(&self.random) };
        let accepted = Accepted { settings, journal: Vec::new(), receipts: Vec::new() };
        let (sign, last) = self.end_of(5);
        let over = self.random.pick(&[0, 0, 1, 2]);
        let left = sample::amounts_with_sum(&self.random, last - sign * (sample::FIVE_LARGEST - over));
        // the most that a receipt can add, then to the end or over it, then a cent more, then back
        let amounts = [[0; 5], [sign * AMOUNT_LIMIT; 5], left, [sign, 0, 0, 0, 0], [-sign * 100, 0, 0, 0, 0]];
        let receipts: Vec<Given> = (0..self.random.pick(&[3, 4, 5]))
            .map(|i| {
                let kind = if i < 2 { 0 } else { self.random.pick(&[0, 1, 2]) };
                let date = sample::date(&self.random);
                (Details { number: i as u32 + 1, date, amounts: amounts[i], kind }, sample::signature(&self.random))
            })
            .collect();
        let bytes = Journal::with(&settings, &receipts).bytes();
        self.take_over(&accepted, &bytes)
    }

    /// A sign, and the end of this width on that side.
    fn end_of(&self, width: u64) -> (i64, i64) {
        let end = sample::width_end(width);
        self.random.pick(&[(1, end), (-1, !end)])
    }

    /// Width 6 to one of its ends.
    fn long_journal(&mut self) -> Compared<()> {
        let settings = Settings { width: 6, id: Name::of(b"6"), ..sample::settings(&self.random) };
        let end = self.end_of(6);
        let receipts = fill_width(self.compare, &Peer, &self.random, &settings, end)?;
        demand(receipts == 283, "width 6 takes 283 receipts", &settings_bytes(&settings))
    }

    // ---- codes

    /// Code of a form, and Uncode and Fields of it, whole and damaged.
    fn codes_of(&mut self, accepted: &Accepted) -> Compared<()> {
        let mut journal = Journal::of(&accepted.journal);
        let mut entry = match journal.entries().len() {
            0 => self.built(accepted, 1).entry(0).clone(),
            length => journal.entry(self.random.below(length)).clone(),
        };
        let mut form = entry.form();
        let code = self.coded(&form)?;
        self.uncoded(&code)?;

        match self.random.below(3) {
            0 => self.respell_compact(&mut entry),
            1 => self.respell_field(&mut entry),
            _ => entry.raw = None,
        }
        form = entry.form();
        if entry.raw.is_none() && self.random.once_in(2) {
            self.damage_bytes(&mut form);
        }
        self.coded(&form)?;

        let mut damaged = code;
        let last = damaged.iter().rposition(|&byte| byte == b'_').unwrap_or(0);
        match self.random.below(4) {
            0 => {
                let mut signature = damaged.split_off((last + 1).min(damaged.len()));
                self.respell_base64(&mut signature);
                damaged.extend(signature);
            }
            1 => damaged[last] = self.random.pick(b"-A=\0"),
            _ => self.damage_bytes(&mut damaged),
        }
        self.uncoded(&damaged)
    }

    /// Code into outputs of some lengths; the code, where there is one.
    fn coded(&mut self, form: &[u8]) -> Compared<Vec<u8>> {
        let mut wide = vec![0; 400];
        let written = self.compare.code(form, &mut wide)?;
        wide.truncate(written.length);
        let room = self.room(written.length);
        let mut output = self.garbage(room);
        self.compare.code(form, &mut output)?;
        Ok(wide)
    }

    /// Uncode into outputs of some lengths, and Fields.
    fn uncoded(&mut self, code: &[u8]) -> Compared<()> {
        let mut wide = vec![0; 400];
        let written = self.compare.uncode(code, &mut wide)?;
        let room = self.room(written.length);
        let mut output = self.garbage(room);
        self.compare.uncode(code, &mut output)?;
        self.compare.fields(code)?;
        if written.number == 0 {
            let back = Peer.code(&wide[..written.length], &mut [0; 400]);
            demand(back.number == 0 && back.length == code.len(), "a code comes back", code)?;
        }
        Ok(())
    }

    /// Payloads of any bytes and of lengths at the limits, with signatures of any length; and random texts.
    fn free_codes(&mut self) -> Compared<()> {
        if self.random.once_in(6) {
            let longest = LONGEST_COMPACT;
            let length = self.random.pick(&[0, 1, 2, 3, 5, 21, 100, longest, longest + 1, 400, 5000]);
            let mut text: Vec<u8> = (0..length).map(|_| self.random.pick(b"AQgw_.-=R1\0")).collect();
            if self.random.once_in(2) {
                let start = self.random.pick(&[&b"eyJhbGciOiJFUzI1NiJ9."[..], b"eyJhbGciOiJFUzI1NiJ9", b"_R1-"]);
                text.splice(0..0, start.iter().copied());
            }
            self.coded(&text)?;
            return self.uncoded(&text);
        }
        let edge = self.random.pick(&sample::PAYLOAD_EDGES);
        let length = self.random.pick(&[4, 5, 6, 9, 13, edge, edge, edge, edge, 1000]);
        let mut payload = self
            .random
            .pick(&[&b"_R1-"[..], b"_R1-", b"_R1-", b"_R1-", b"_R1_", b"_R2-", b"R1-A", b"_R1", b""])
            .to_vec();
        while payload.len() < length {
            payload.push(if self.random.once_in(2) { self.random.pick(b"__A0.") } else { self.random.byte() });
        }
        let signature = match self.random.below(8) {
            0 => FAILURE.to_vec(),
            1 => {
                let mut text = FAILURE.to_vec();
                text[self.random.below(FAILURE.len())] ^= 1 << self.random.below(8);
                text
            }
            2 => {
                let length = self.random.pick(&[0, 1, 33, 34, 35, 62, 63, 65, 66]);
                self.garbage(length)
            }
            _ => self.garbage(64),
        };
        let mut form = [&b"eyJhbGciOiJFUzI1NiJ9"[..], &url_text(&payload), &url_text(&signature)].join(&b'.');
        let mut code = [&payload[..], b"_", &padded_text(&signature)].concat();
        if self.random.once_in(6) {
            self.damage_bytes(&mut form);
            self.damage_bytes(&mut code);
        }
        self.coded(&form)?;
        self.uncoded(&code)
    }

    // ---- receipts read back

    /// A receipt of each kind and width, issued and read, and its line.
    fn read_of_each_kind(&mut self) -> Compared<()> {
        for choice in 0..12 {
            let (settings, form, given) = self.receipt_made_by_hand(5 + choice / 3, choice as u32 % 3)?;
            self.read_back(&settings, &form, &given)?;
            self.line_of_a_receipt(&form)?;
        }
        Ok(())
    }

    /// A receipt of this width and kind, issued from a state made by hand: the settings, the form and what was given.
    fn receipt_made_by_hand(&mut self, width: u64, kind: u32) -> Compared<([u8; SETTINGS], Vec<u8>, Given)> {
        let state = self.started_state(width, 0);
        let details = Details { kind, ..sample::details(&self.random, &state) };
        let signature = sample::signature(&self.random);
        let form = self.form_issued(state, &details, &signature)?;
        Ok((settings_bytes(&state.newest()), form, (details, signature)))
    }

    /// A sound state of this width and counter, which has its first receipt.
    fn started_state(&self, width: u64, counter: i64) -> State {
        let mut state = sample::sound_state(&self.random, 0);
        state.width = width;
        state.counter = counter;
        state.last_number = state.last_number.clamp(1, u32::MAX - 1);
        state.receipts = 1;
        state.open_receipts = state.open_receipts.min(1);
        state
    }

    /// The form that Issue writes with good details to a journal of the head alone.
    fn form_issued(&mut self, state: State, details: &Details, signature: &[u8]) -> Compared<Vec<u8>> {
        let head = state.first().head_length();
        let mut bytes = state_bytes(&State { journal_length: head as u64, open_place: head as u64 - 4, ..state });
        let mut journal = self.garbage(head + 2 + LONGEST_COMPACT);
        let number = self.compare.issue(&mut bytes, details, signature, &mut journal)?;
        demand(number == 0, "a sound state issues good details", &journal)?;
        Ok(journal[head + 2..state_of(&bytes).journal_length as usize].to_vec())
    }

    /// A form of the journal, or another text, under the right settings or others, into outputs of some lengths.
    fn read_in_any_way(&mut self, accepted: &Accepted) -> Compared<()> {
        let (given, mut form) = self.form_of(accepted);
        if self.random.once_in(2) {
            form = self.other_form(&form);
        }
        let mut settings = settings_bytes(&given).to_vec();
        if self.random.once_in(2) {
            settings = self.other_settings(&given);
        }
        let (mut details, mut signature) = (self.garbage(DETAILS), self.garbage(SIGNATURE));
        if self.random.once_in(2) {
            details.resize(self.random.pick(&[71, 72, 72, 73, 0, 64, 144]), 0x5a);
            signature.resize(self.random.pick(&[63, 64, 64, 65, 0, 34, 72, 128]), 0x5a);
        }
        self.compare.read(&settings, &form, &mut details, &mut signature)?;
        Ok(())
    }

    /// One of the journal's forms with its settings; where it has none, one made of parts.
    fn form_of(&self, accepted: &Accepted) -> (Settings, Vec<u8>) {
        let with = |(serial, forms): (Vec<u8>, Vec<Vec<u8>>)| {
            let settings = accepted.settings_with(&serial);
            forms.into_iter().map(move |form| (settings, form))
        };
        let mut forms: Vec<(Settings, Vec<u8>)> = accepted.pairs().into_iter().flat_map(with).collect();
        if forms.is_empty() {
            forms.push((accepted.settings, self.built(accepted, 1).entry(0).form()));
        }
        forms.swap_remove(self.random.below(forms.len()))
    }

    /// A well spelled form damaged, respelled or saying something else, or another text.
    fn other_form(&self, form: &[u8]) -> Vec<u8> {
        let mut other = form.to_vec();
        let place = self.random.below(form.len());
        match self.random.below(10) {
            0 => other[place] = self.random.byte(),
            1 => other.truncate(place),
            2 => other.extend(self.garbage(1 + place % 4)),
            // with its length in the journal
            3 => other = [&(form.len() as u16).to_be_bytes()[..], form].concat(),
            4 => other = self.garbage(place),
            5 => other.clear(),
            6 => self.damage_bytes(&mut other),
            _ => other = self.other_entry(form),
        }
        other
    }

    /// A well spelled form with one of its parts changed.
    fn other_entry(&self, form: &[u8]) -> Vec<u8> {
        let mut entry = Entry::of(form);
        match self.random.below(4) {
            0 => self.respell_compact(&mut entry),
            1 => self.say_otherwise(&mut entry),
            _ => self.respell_field(&mut entry),
        }
        entry.form()
    }

    /// Settings of another register, of the same one with another key, damaged ones, or ones of another length.
    fn other_settings(&self, settings: &Settings) -> Vec<u8> {
        let mut other = *settings;
        match self.random.below(10) {
            0 => other.width = 5 + (settings.width - 4 + self.random.below(3) as u64) % 4,
            1 => self.other_letter(&mut other.id, *b"AB"),
            2 => self.other_letter(&mut other.serial, *b"01"),
            3 => other.id = self.other_end(settings.id()),
            4 => other.serial = self.other_end(settings.serial()),
            5 => other.csp = sample::csp(&self.random),
            6 => other.key = sample::key(&self.random),
            7 => sample::spoil_settings(&self.random, &mut other),
            8 => return self.other_length(&settings_bytes(settings)),
            // the whole state in place of settings
            _ => return state_bytes(&State::opened(settings)).to_vec(),
        }
        settings_bytes(&other).to_vec()
    }

    /// Another letter at one place of a name.
    fn other_letter(&self, name: &mut Name, [letter, instead]: [u8; 2]) {
        let byte = &mut name.bytes[self.random.below(name.length as usize)];
        *byte = if *byte == letter { instead } else { letter };
    }

    /// A name with a letter less, or one more.
    fn other_end(&self, name: &[u8]) -> Name {
        let mut other = name.to_vec();
        other.push(b'0');
        if other.len() > 32 || self.random.once_in(2) {
            other.truncate(name.len() - 1);
        }
        Name::of(&other)
    }

    /// The errors that the paper names in the spelling of a receipt: taken over, and read.
    fn student_errors(&mut self, accepted: &Accepted) -> Compared<()> {
        let settings = settings_bytes(&accepted.settings);
        for error in 0..5 {
            let mut journal = self.built(accepted, 2);
            let good = journal.entry(1).form();
            misspell(journal.entry(1), error);
            let (bytes, form) = (journal.bytes(), journal.entry(1).form());
            self.take_over(accepted, &bytes)?;
            let read = self.compare.read(&settings, &form, &mut [0x5a; DETAILS], &mut [0xa5; SIGNATURE])?;
            // six bytes of counter have no padding to leave out
            demand(read.number == 16 || form == good, "a student error is refused", &form)?;
        }
        Ok(())
    }

    /// A form of the journal cut at every place, and with a bit changed in every byte.
    fn read_with_every_change(&mut self, accepted: &Accepted) -> Compared<()> {
        let (settings, form) = self.form_of(accepted);
        let settings = settings_bytes(&settings);
        for place in 0..form.len() {
            let mut other = form.clone();
            other[place] ^= 1 << self.random.below(8);
            self.compare.read(&settings, &other, &mut [0x5a; DETAILS], &mut [0xa5; SIGNATURE])?;
            self.compare.read(&settings, &form[..place], &mut [0x5a; DETAILS], &mut [0xa5; SIGNATURE])?;
        }
        Ok(())
    }

    /// A form of the journal under settings with any one bit changed.
    fn read_under_every_change(&mut self, accepted: &Accepted) -> Compared<()> {
        let (given, form) = self.form_of(accepted);
        for bit in 0..8 * SETTINGS {
            let mut settings = settings_bytes(&given);
            settings[bit / 8] ^= 1 << (bit % 8);
            self.compare.read(&settings, &form, &mut [0x5a; DETAILS], &mut [0xa5; SIGNATURE])?;
        }
        Ok(())
    }
}

/// Makes one of the five student errors in the spelling of a receipt.
fn misspell(entry: &mut Entry, error: usize) {
    match error {
        0 => entry.fields[3][10] = b'D',
        1 => entry.signature = b"safety device failure".to_vec(),
        2 => entry.fields[COUNTER].retain(|&byte| byte != b'='),
        3 => entry.fields[CHAIN].retain(|&byte| byte != b'='),
        // the last letter of a signature has four unused bits
        _ => {
            let mut form = entry.form();
            *form.last_mut().expect("letters") += 1;
            entry.raw = Some(form);
        }
    }
}
