//! What a round does with changes of the certificate (request E5): Change, the state that it leaves, and journals of several
//! pairs.

use super::{Accepted, Round};
use crate::calls::TakenOver;
use crate::compare::{Compared, demand};
use crate::layout::{SETTINGS, STATE, details_bytes, settings_bytes, state_bytes, state_of};
use crate::model::{
    CHAIN, COUNTER, FIRST_AMOUNT, Given, Journal, NUMBER, Pair, PairPlaces, SERIAL, padded_text, pair_places,
};
use crate::receipt::{Details, LONGEST_COMPACT, LONGEST_INPUT, chain_value};
use crate::register::{SERIALS, State};
use crate::sample;
use crate::settings::{Name, Settings};

/// The questions of Change, in their order.
const QUESTIONS: [u32; 5] = [6, 3, 30, 31, 13];

/// The serials of a sound state that are used.
pub(super) fn used_serials(state: &State) -> Vec<Vec<u8>> {
    state.serials.iter().map(|serial| serial.shown().to_vec()).take_while(|serial| !serial.is_empty()).collect()
}

/// What Change appends for a serial: its section, and a receipts count of 0.
pub(super) fn pair_bytes(serial: &[u8]) -> Vec<u8> {
    [&(serial.len() as u32).to_be_bytes()[..], serial, &[0; 4]].concat()
}

/// The state that Change leaves.
pub(super) fn changed_state(state: &State, serial: &[u8]) -> State {
    let mut after = *state;
    after.serials[used_serials(state).len()] = Name::of(serial);
    after.journal_length += pair_bytes(serial).len() as u64;
    after.open_receipts = 0;
    after.open_place = after.journal_length - 4;
    after
}

/// A journal of several pairs, made of parts, its settings, and the receipts that it was made of.
#[derive(Clone)]
pub(super) struct Design {
    pub(super) settings: Settings,
    pub(super) journal: Journal,
    given: Vec<Given>,
}

impl Design {
    fn pairs(&self) -> usize {
        self.journal.pairs.len()
    }

    /// All receipts.
    pub(super) fn receipts(&self) -> usize {
        self.journal.entries().len()
    }

    pub(super) fn serials(&self) -> Vec<Vec<u8>> {
        self.journal.pairs.iter().map(|pair| pair.serial.clone()).collect()
    }

    /// Makes counters and chain right from this entry on.
    pub(super) fn right(mut self, from: usize) -> Self {
        self.journal.all_right(from, &self.settings);
        self
    }

    /// As a list of calls writes it.
    pub(super) fn accepted(&self) -> Accepted {
        Accepted { settings: self.settings, journal: self.journal.bytes(), receipts: self.given.clone() }
    }

    /// The journal with these bytes after it.
    fn and(&self, bytes: &[u8]) -> Vec<u8> {
        [&self.journal.bytes()[..], bytes].concat()
    }
}

/// The answer of Take over to a valid journal that is cut here.
fn answer_to_cut(pairs: &[PairPlaces], cut: usize) -> TakenOver {
    let no = |number, index| TakenOver { number, index };
    let mut index = 0;
    for (which, pair) in pairs.iter().enumerate() {
        if which > 0 && cut == pair.start {
            break;
        }
        if cut < pair.count + 4 {
            return if which == 0 { no(14, 0) } else { no(21, index) };
        }
        for entry in &pair.entries {
            if cut < entry.end {
                return no(15, index);
            }
            index += 1;
        }
    }
    no(0, 0)
}

impl Round<'_> {
    // ---- what a state says

    /// All that a state says, into outputs of some lengths.
    pub(super) fn said(&mut self, state: &[u8]) -> Compared<()> {
        self.compare.figures(state)?;
        let held = state_of(state);
        for which in [0, 1, 7, 8, self.random.below(10) as u32, self.random.next() as u32, u32::MAX] {
            let needed = held.serial_in(which as usize).map_or(0, |serial| serial.shown().len());
            let room = self.room(needed);
            let mut output = self.garbage(room);
            self.compare.serial(state, which, &mut output)?;
            let room = self.random.pick(&[SETTINGS, SETTINGS, SETTINGS, SETTINGS - 1, SETTINGS + 1, 0, STATE]);
            let mut settings = self.garbage(room);
            self.compare.settings_in(state, which, &mut settings)?;
        }
        Ok(())
    }

    /// The settings with one of the serials of a state.
    pub(super) fn settings_said(&mut self, state: &[u8], which: usize) -> Compared<[u8; SETTINGS]> {
        let mut settings = self.random.array();
        let number = self.compare.settings_in(state, which as u32, &mut settings)?;
        demand(number == 0, "a state says its settings", state)?;
        Ok(settings)
    }

    /// States of every number of serials, and such with something else in the eight places.
    pub(super) fn serials_of_a_state(&mut self) -> Compared<()> {
        for number in 0..=SERIALS {
            let serials = self.random_serials(number);
            self.serials_said(&serials, sample::slots(&serials))?;
        }
        let serials = self.random_serials(3);
        let mut slots = sample::slots(&serials);
        // after a gap, and in a place of length 0
        slots[4] = Name::of(&sample::serial(&self.random));
        self.serials_said(&serials, slots)?;
        slots[3].bytes[self.random.below(32)] = b'7';
        self.serials_said(&serials, slots)?;
        // a length over 32
        slots[3] = Name { bytes: [b'f'; 32], length: self.random.pick(&[33, 64, 256, 1 << 32, 1 << 63, u64::MAX]) };
        let with_long = [&serials[..], &[vec![b'f'; 32], slots[4].shown().to_vec()]].concat();
        self.serials_said(&with_long, slots)
    }

    fn random_serials(&self, number: usize) -> Vec<Vec<u8>> {
        let mut serials = sample::serials(&self.random, &sample::serial(&self.random), number);
        serials.truncate(number);
        serials
    }

    /// A state with these eight places says these serials.
    fn serials_said(&mut self, serials: &[Vec<u8>], slots: [Name; SERIALS]) -> Compared<()> {
        let state = State { serials: slots, ..sample::sound_state(&self.random, 20) };
        let bytes = state_bytes(&state);
        self.said(&bytes)?;
        for which in 0..SERIALS + 1 {
            let serial = serials.get(which).map_or(&b""[..], |serial| serial);
            let mut output = vec![0x5a; 32];
            let written = self.compare.serial(&bytes, which as u32, &mut output)?;
            let text = [serial, &vec![0x5a; 32 - serial.len()]].concat();
            demand(written.length == serial.len() && output == text, "a state says its serials", &bytes)?;
            let slot = slots[..serials.len()].get(which).copied().unwrap_or_default();
            let settings = Settings { serial: slot, ..state.first() };
            let said = self.settings_said(&bytes, which)?;
            demand(said == settings_bytes(&settings), "a state says the settings of each serial", &bytes)?;
        }
        let other = self.other_length(&bytes);
        self.said(&other)
    }

    // ---- change

    /// One more change in a list: to a new serial, a bad one or one that was used.
    pub(super) fn next_change(&mut self, state: &mut [u8], journal: &mut [u8]) -> Compared<()> {
        let used = used_serials(&state_of(state));
        let serial = match self.random.below(6) {
            0 => sample::bad_serial(&self.random, &used),
            1 => used[self.random.below(used.len())].clone(),
            _ => sample::next_serial(&self.random, &used),
        };
        if self.random.once_in(3) {
            self.changed_into_room(state, &serial, journal)?;
        }
        self.change(state, &serial, journal)?;
        self.said(state)
    }

    /// Change, which leaves the state and the bytes that the request says.
    fn change(&mut self, state: &mut [u8], serial: &[u8], journal: &mut [u8]) -> Compared<u32> {
        let (held, before) = (state_of(state), journal.to_vec());
        let number = self.compare.change(state, serial, journal)?;
        if number == 0 {
            let length = held.journal_length as usize;
            let pair = pair_bytes(serial);
            let after = [&before[..length], &pair, &before[length + pair.len()..]].concat();
            demand(journal == after, "a change appends a serial and an empty section", state)?;
            demand(state == state_bytes(&changed_state(&held, serial)), "a change opens a section", state)?;
        }
        Ok(number)
    }

    /// Change into a copy of the buffer that is exactly long enough, or a byte short, and so on.
    fn changed_into_room(&mut self, state: &[u8], serial: &[u8], journal: &[u8]) -> Compared<()> {
        let held = state_of(state).journal_length as usize;
        let mut wide = journal.to_vec();
        wide.resize(journal.len() + 50, 0x5a);
        let end = held + pair_bytes(serial).len();
        if wide.len() <= end || self.change(&mut state.to_vec(), serial, &mut wide.clone())? != 0 {
            return Ok(());
        }
        for (length, expected) in [(end, 0), (end - 1, 13), (end + 1, 0), (held, 13), (held + 1, 13), (held - 1, 6)] {
            let number = self.change(&mut state.to_vec(), serial, &mut wide[..length].to_vec())?;
            demand(number == expected, "a change needs eight bytes and the serial", state)?;
        }
        Ok(())
    }

    /// Change from a state made by hand, sound or not, into a buffer of some length.
    pub(super) fn changed_by_hand(&mut self, held: &State, state: &[u8], journal: &[u8]) -> Compared<()> {
        let used = used_serials(held);
        let mut serial = sample::next_serial(&self.random, &used);
        match self.random.below(8) {
            0 => serial = sample::bad_serial(&self.random, &used),
            1 if !used.is_empty() => serial = used[self.random.below(used.len())].clone(),
            _ => (),
        }
        self.compare.change(&mut state.to_vec(), &serial, &mut journal.to_vec())?;
        let room = (state_of(state).journal_length.min(2000) as usize + 8 + serial.len()).saturating_sub(1);
        for room in [room, room + 1] {
            let mut buffer = self.garbage(room);
            self.compare.change(&mut state.to_vec(), &serial, &mut buffer)?;
        }
        Ok(())
    }

    /// Each question answered by "no" together with each other one, and alone: the first decides.
    pub(super) fn order_of_change(&mut self) -> Compared<()> {
        for (place, &first) in QUESTIONS.iter().enumerate() {
            for &other in &QUESTIONS[place..] {
                self.change_refused_by([first, other])?;
            }
        }
        Ok(())
    }

    /// Change, with "no" to these questions, which stand in their order.
    fn change_refused_by(&mut self, wrong: [u32; 2]) -> Compared<()> {
        let number = if wrong.contains(&31) { SERIALS } else { 1 + self.random.below(SERIALS - 1) };
        let mut state = sample::sound_state(&self.random, 100);
        let used = sample::serials(&self.random, state.serials[0].shown(), number);
        state.serials = sample::slots(&used);
        let serial = match (wrong.contains(&3), wrong.contains(&30)) {
            (true, true) => sample::bad_serial_like(&self.random, &used),
            (true, false) => sample::bad_serial(&self.random, &used),
            (false, true) => used[self.random.pick(&[0, number - 1, self.random.below(number)])].clone(),
            (false, false) => sample::next_serial(&self.random, &used),
        };
        let length = state.journal_length as usize;
        let needed = 8 + serial.len();
        let more = if wrong.contains(&13) { self.random.pick(&[0, 1, needed - 1]) } else { needed };
        let mut journal = self.garbage(length + more);
        if wrong.contains(&6) {
            sample::spoil_state(&self.random, &mut state, journal.len());
        }
        let mut bytes = state_bytes(&state).to_vec();
        if wrong.contains(&6) && self.random.once_in(6) {
            bytes = self.other_length(&bytes);
        }
        let given = [&bytes[..], &serial].concat();
        let number = self.compare.change(&mut bytes, &serial, &mut journal)?;
        demand(number == wrong[0], "the first question of Change decides", &given)
    }

    /// Every byte as a letter of a serial, and serials of every length.
    pub(super) fn serials_to_change_to(&mut self) -> Compared<()> {
        for letter in 0..=255 {
            let mut serial = sample::serial(&self.random);
            let place = self.random.below(serial.len());
            serial[place] = letter;
            self.changed_to(&serial, matches!(letter, b'0'..=b'9' | b'a'..=b'f'))?;
        }
        for length in (0..=34).chain([64, 256, 256 + 5, 65_536 + 5]) {
            self.changed_to(&vec![b'a'; length], (1..=32).contains(&length))?;
        }
        Ok(())
    }

    /// Change to a serial that was never used.
    fn changed_to(&mut self, serial: &[u8], good: bool) -> Compared<()> {
        let mut state = sample::sound_state(&self.random, 20);
        state.serials = sample::slots(&used_serials(&state)[..1]);
        if state.serials[0].shown() == serial {
            return Ok(());
        }
        let mut journal = self.garbage(state.journal_length as usize + 8 + serial.len());
        let number = self.change(&mut state_bytes(&state), serial, &mut journal)?;
        demand(number == if good { 0 } else { 3 }, "a serial is 1 to 32 of 0-9 a-f", serial)
    }

    // ---- the place of the count

    /// The count of the open section at every kind of place: Prepare, Issue and Change.
    pub(super) fn places_of_the_count(&mut self) -> Compared<()> {
        for choice in 0..12 {
            let mut state = self.started_state(5 + choice % 4, 0);
            let head = state.journal_length;
            state.journal_length += self.random.below(60) as u64;
            let last = state.journal_length - 4;
            state.open_place = match choice {
                0 => 0,
                1 => head - 4,
                2 => last,
                3 => self.random.pick(&[1, 2, 3, 7, 11, head - 5, head - 3]).min(last),
                4 | 5 => self.random.below(last as usize + 1) as u64,
                6 => last + 1,
                7 => state.journal_length,
                8 => u64::MAX - 3,
                9 => u64::MAX,
                _ => sample::place_beyond(&self.random, state.journal_length),
            };
            self.counted_there(&state, state.open_place <= last)?;
        }
        for length in [1 << 32, 1 << 63, u64::MAX - 1, u64::MAX] {
            self.counted_far_away(length)?;
        }
        Ok(())
    }

    /// A journal longer than any buffer: Prepare asks for the place of its count, Issue and Change for the buffer.
    fn counted_far_away(&mut self, length: u64) -> Compared<()> {
        let state = State { journal_length: length, ..self.started_state(5, 0) };
        for (place, expected) in [(0, 0), (length - 5, 0), (length - 4, 0), (length - 3, 6), (length, 6), (u64::MAX, 6)]
        {
            let mut bytes = state_bytes(&State { open_place: place, ..state });
            let details = Details { number: state.last_number + 1, kind: 2, ..sample::details(&self.random, &state) };
            let prepared = self.compare.prepare(&bytes, &details, &mut [0x5a; LONGEST_INPUT])?;
            demand(prepared.number == expected, "a count ends within the journal", &bytes)?;
            let mut journal = self.garbage(500);
            let issued = self.compare.issue(&mut bytes, &details, &[], &mut journal)?;
            let changed = self.compare.change(&mut bytes, b"0", &mut journal)?;
            demand((issued, changed) == (6, 6), "a journal is no longer than its buffer", &bytes)?;
        }
        Ok(())
    }

    /// Issue writes the count at the place of a state, and Change does not; both refuse a place beyond the journal.
    fn counted_there(&mut self, state: &State, within: bool) -> Compared<()> {
        let details = Details { number: state.last_number + 1, kind: 2, ..sample::details(&self.random, state) };
        let bytes = state_bytes(state);
        let given = [&bytes[..], &details_bytes(&details)].concat();
        let expected = if within { 0 } else { 6 };
        let prepared = self.compare.prepare(&bytes, &details, &mut [0x5a; LONGEST_INPUT])?;
        demand(prepared.number == expected, "a count within the journal is asked by Prepare", &given)?;

        let length = state.journal_length as usize;
        let before = self.garbage(length + 2 + LONGEST_COMPACT);
        let (mut after, mut journal) = (bytes, before.clone());
        let number = self.compare.issue(&mut after, &details, &[], &mut journal)?;
        demand(number == expected, "a count within the journal is asked by Issue", &given)?;
        if within {
            let mut counted = before[..length].to_vec();
            let place = state.open_place as usize;
            counted[place..place + 4].copy_from_slice(&(state.open_receipts + 1).to_be_bytes());
            demand(journal[..length] == counted, "Issue rewrites the count of the open section", &given)?;
        }
        let serial = sample::next_serial(&self.random, &used_serials(state));
        let number = self.change(&mut bytes.clone(), &serial, &mut before.clone())?;
        let expected = if within && state.used() == SERIALS { 31 } else { expected };
        demand(number == expected, "a count within the journal is asked by Change", &given)
    }

    // ---- lists of calls

    /// A list that changes to eight serials, with some receipts between the changes or none, and to no ninth.
    pub(super) fn list_to_the_last_serial(&mut self) -> Compared<()> {
        let settings = sample::settings(&self.random);
        let room = settings.head_length() + 7 * 40 + 24 * (2 + LONGEST_COMPACT);
        let mut journal = self.garbage(room);
        let mut state = self.garbage(STATE);
        self.compare.open(&settings_bytes(&settings), &mut journal, &mut state)?;
        let serials = sample::serials(&self.random, settings.serial(), SERIALS + 1);
        let mut receipts = Vec::new();
        for (place, serial) in serials.iter().enumerate() {
            if place > 0 {
                let expected = if place == SERIALS { 31 } else { 0 };
                let number = self.change(&mut state, serial, &mut journal)?;
                demand(number == expected, "eight serials can be used, and no ninth", &state)?;
            }
            let used = &serials[..=place.min(SERIALS - 1)];
            self.not_used_again(&state, used, &journal)?;
            for _ in 0..self.random.pick(&[0, 0, 1, 2]) {
                receipts.extend(self.next_of_a_list(&mut state, &mut journal)?);
            }
        }
        journal.truncate(state_of(&state).journal_length as usize);
        let accepted = Accepted { settings, journal, receipts };
        self.written_again(&accepted)?;
        self.read_under_other_serials(&accepted, &state)?;
        self.taken_over(&accepted)?;
        self.cut_near_pairs(&accepted.settings, &accepted.journal)?;
        for _ in 0..8 {
            self.damaged(&accepted)?;
            self.rebuilt(&accepted)?;
        }
        Ok(())
    }

    /// No serial comes back: not the newest, not the first, nor another.
    fn not_used_again(&mut self, state: &[u8], used: &[Vec<u8>], journal: &[u8]) -> Compared<()> {
        for serial in [&used[0], &used[used.len() - 1], &used[self.random.below(used.len())]] {
            let number = self.compare.change(&mut state.to_vec(), serial, &mut journal.to_vec())?;
            demand(number == 30, "a serial does not come back", state)?;
        }
        Ok(())
    }

    /// A receipt is read with the settings of its pair, and with those of no other.
    fn read_under_other_serials(&mut self, accepted: &Accepted, state: &[u8]) -> Compared<()> {
        for (place, (_, forms)) in accepted.pairs().iter().enumerate() {
            let Some(form) = forms.first() else { continue };
            for which in [place, place.saturating_sub(1), place + 1, self.random.below(SERIALS), SERIALS] {
                let settings = self.settings_said(state, which)?;
                let expected = match which {
                    _ if which == place => 0,
                    SERIALS => 3,
                    _ => 16,
                };
                let read = self.compare.read(&settings, form, &mut [0x5a; 72], &mut [0x5a; 64])?;
                demand(read.number == expected, "a receipt is read with the serial of its pair", form)?;
            }
        }
        Ok(())
    }

    // ---- journals made of parts

    /// Parts the last pair anywhere: what comes after that place gets this serial.
    pub(super) fn split(&self, journal: &mut Journal, serial: &[u8]) {
        let last = journal.pairs.last_mut().expect("a pair");
        let place = self.random.below(last.entries.len() + 1);
        let mut entries = last.entries.split_off(place);
        last.count = place as u32;
        for entry in &mut entries {
            entry.fields[SERIAL] = serial.to_vec();
        }
        journal.pairs.push(Pair { serial: serial.to_vec(), count: entries.len() as u32, entries });
    }

    /// A valid journal of so many pairs, with these numbers of receipts in them.
    pub(super) fn designed(&self, receipts: &[usize]) -> Design {
        let settings = sample::settings(&self.random);
        let serials = sample::serials(&self.random, settings.serial(), receipts.len());
        let given = self.receipts_in_a_row(receipts.iter().sum());
        let mut rest = given.iter().cloned();
        let pairs: Vec<(Vec<u8>, Vec<Given>)> = serials
            .into_iter()
            .zip(receipts)
            .map(|(serial, &count)| (serial, rest.by_ref().take(count).collect()))
            .collect();
        Design { journal: Journal::with_pairs(&settings, &pairs), settings, given }
    }

    /// So many receipts with rising numbers, the first of them a start receipt.
    fn receipts_in_a_row(&self, receipts: usize) -> Vec<Given> {
        let mut number = 0;
        let mut next = |place: usize| {
            number += 1 + self.random.below(20) as u32;
            let amounts = std::array::from_fn(|_| if place == 0 { 0 } else { self.random.between(1, 100_000) });
            let kind = if place == 0 { 0 } else { self.random.pick(&[0, 0, 1, 2]) };
            let details = Details { number, date: sample::date(&self.random), amounts, kind };
            (details, sample::signature(&self.random))
        };
        (0..receipts).map(&mut next).collect()
    }

    /// Any numbers of receipts for so many pairs.
    pub(super) fn some_receipts(&self, pairs: usize) -> Vec<usize> {
        (0..pairs).map(|_| self.random.pick(&[0, 1, 1, 2])).collect()
    }

    fn answered_with(&mut self, design: &Design, bytes: &[u8], number: u32, index: usize, what: &str) -> Compared<()> {
        let Settings { key, width, .. } = design.settings;
        let mut state = self.garbage(STATE);
        let taken = self.taken(bytes, &key, width as usize, &mut state)?;
        demand(taken == TakenOver { number, index: index as u32 }, what, bytes)
    }

    /// Journals of one to ten pairs: valid ones, and ones with one thing wrong, whose answer is known.
    pub(super) fn pairs_by_design(&mut self) -> Compared<()> {
        let pairs = 1 + self.random.below(SERIALS);
        let receipts = self.some_receipts(pairs);
        let design = self.designed(&receipts);
        self.valid_pairs(&design)?;
        self.written_again(&design.accepted())?;
        self.bytes_after(&design)?;
        self.cut_near_pairs(&design.settings, &design.journal.bytes())?;
        self.ninth_pair()?;
        self.late_start()?;

        // at least a receipt in each pair
        let pairs = 2 + self.random.below(SERIALS - 1);
        let receipts: Vec<usize> = (0..pairs).map(|_| 1 + self.random.below(2)).collect();
        let design = self.designed(&receipts);
        self.valid_pairs(&design)?;
        let pair = 1 + self.random.below(pairs - 1);
        self.misspelled_serials(&design, pair)?;
        self.other_serials(&design, pair)?;
        self.other_counts(&design, pair)?;
        self.moved_entries(&design, pair)?;
        self.old_serial(&design, pair)?;
        self.restarted(&design, pair)?;
        self.restarted_counter()
    }

    /// A valid journal gives the state that its sections say.
    fn valid_pairs(&mut self, design: &Design) -> Compared<()> {
        let bytes = design.journal.bytes();
        let Settings { key, width, .. } = design.settings;
        let mut state = self.garbage(STATE);
        let taken = self.taken(&bytes, &key, width as usize, &mut state)?;
        demand(taken == TakenOver::DONE, "a journal of pairs is accepted", &bytes)?;
        let held = state_of(&state);
        let last = pair_places(&bytes).pop().expect("a pair");
        let numbers = (held.receipts as usize, held.open_receipts as usize, held.journal_length as usize);
        let expected = (design.receipts(), last.entries.len(), bytes.len());
        demand(numbers == expected, "the state has the receipts of all pairs and of the last", &bytes)?;
        demand(held.open_place as usize == last.count, "the state has the place of the last count", &bytes)?;
        demand(held.serials == sample::slots(&design.serials()), "the state has all serials", &bytes)?;
        self.said(&state)
    }

    /// Bytes after the last pair: 21, another pair, 30 or 31.
    fn bytes_after(&mut self, design: &Design) -> Compared<()> {
        let (receipts, serials) = (design.receipts(), design.serials());
        let used = &serials[self.random.pick(&[0, serials.len() - 1, self.random.below(serials.len())])];
        let new = sample::next_serial(&self.random, &serials);
        let number = if serials.len() == SERIALS { 31 } else { 0 };
        let index = if number == 0 { 0 } else { receipts };
        self.answered_with(
            design,
            &design.and(&pair_bytes(&new)),
            number,
            index,
            "a new serial is a pair, but no ninth",
        )?;
        self.answered_with(design, &design.and(&pair_bytes(used)), 30, receipts, "a used serial gets 30")?;
        for serial in [used, &new] {
            // within the serial's count, within the serial, and within the receipts count
            let pair = pair_bytes(serial);
            let (last, inner) = (pair.len() - 4, self.random.below(serial.len()));
            for length in [1, 3, 4, 4 + inner, last, last + 1, last + 2, last + 3] {
                self.answered_with(design, &design.and(&pair[..length]), 21, receipts, "a cut pair gets 21")?;
            }
        }
        let bad = sample::bad_serial(&self.random, &serials);
        let like = sample::bad_serial_like(&self.random, &serials);
        for bytes in [&pair_bytes(&bad)[..], &pair_bytes(&like), &[0; 8], &[0; 40], &[0xff; 12], b"\n"] {
            self.answered_with(design, &design.and(bytes), 21, receipts, "bytes that start no pair get 21")?;
        }
        let entry = design.journal.bytes();
        let places = pair_places(&entry);
        if let Some(entry) = places.iter().flat_map(|pair| &pair.entries).next().map(|range| &entry[range.clone()]) {
            self.answered_with(design, &design.and(entry), 21, receipts, "an entry that is not counted gets 21")?;
        }
        Ok(())
    }

    /// Eight pairs and a ninth: 31, but 30 for a used serial, and 21 where it is cut, in this order.
    fn ninth_pair(&mut self) -> Compared<()> {
        let receipts = self.some_receipts(SERIALS);
        let eight = self.designed(&receipts);
        self.valid_pairs(&eight)?;
        self.bytes_after(&eight)?;
        let with_more = |pairs: usize| [&receipts[..], &vec![1; pairs]].concat();
        for more in 1..=2 {
            let design = self.designed(&with_more(more));
            let index = design.journal.before(SERIALS);
            let mut bytes = design.journal.bytes();
            self.answered_with(&design, &bytes, 31, index, "a ninth pair gets 31")?;
            bytes.truncate(pair_places(&bytes)[SERIALS].count + self.random.below(4));
            self.answered_with(&design, &bytes, 21, index, "a ninth pair that is cut gets 21")?;
        }
        let mut design = self.designed(&with_more(1));
        let index = design.journal.before(SERIALS);
        design.journal.pairs[SERIALS].serial = design.serials()[self.random.below(SERIALS)].clone();
        let bytes = design.journal.bytes();
        self.answered_with(&design, &bytes, 30, index, "a ninth serial that was used gets 30")
    }

    /// Pairs without receipts before the first one, which must be a start receipt and is the only one.
    fn late_start(&mut self) -> Compared<()> {
        let empty = 1 + self.random.below(4);
        let receipts = [&vec![0; empty][..], &[1, 2, 0, 1]].concat();
        let mut design = self.designed(&receipts);
        self.valid_pairs(&design)?;
        let entry = design.journal.entry(0);
        match self.random.below(2) {
            0 => entry.fields[COUNTER] = b"VFJB".to_vec(),
            _ => entry.fields[FIRST_AMOUNT] = b"0,01".to_vec(),
        }
        let design = design.right(0);
        let bytes = design.journal.bytes();
        self.answered_with(&design, &bytes, 18, 0, "the register's first receipt is a start receipt")
    }

    /// A valid journal cut at every byte near the start of a pair.
    pub(super) fn cut_near_pairs(&mut self, settings: &Settings, journal: &[u8]) -> Compared<()> {
        let pairs = pair_places(journal);
        for pair in &pairs {
            for cut in pair.start.saturating_sub(3)..=(pair.count + 8).min(journal.len()) {
                let mut state = self.garbage(STATE);
                let taken = self.taken(&journal[..cut], &settings.key, settings.width as usize, &mut state)?;
                demand(
                    taken == answer_to_cut(&pairs, cut),
                    "a journal is accepted up to the end of a pair",
                    &journal[..cut],
                )?;
            }
        }
        Ok(())
    }

    /// The serial of a later pair with another length, or with a foreign letter.
    fn misspelled_serials(&mut self, design: &Design, pair: usize) -> Compared<()> {
        let (bytes, index) = (design.journal.bytes(), design.journal.before(pair));
        let places = &pair_places(&bytes)[pair];
        let length = places.serial().len() as u32;
        for count in [0, 33, length + 1, length | 1 << 8, length | 1 << 31, u32::MAX] {
            let mut bytes = bytes.clone();
            bytes[places.start..places.start + 4].copy_from_slice(&count.to_be_bytes());
            self.answered_with(design, &bytes, 21, index, "a serial of another length gets 21")?;
        }
        let mut shorter = bytes.clone();
        shorter[places.start..places.start + 4].copy_from_slice(&(length - 1).to_be_bytes());
        self.taken(&shorter, &design.settings.key, design.settings.width as usize, &mut [0x5a; STATE])?;
        let mut foreign = bytes.clone();
        foreign[places.start + 4 + self.random.below(length as usize)] = sample::no_serial_byte(&self.random);
        self.answered_with(design, &foreign, 21, index, "a serial with a foreign letter gets 21")
    }

    /// Another serial for a pair: a new one, a used one, or that of another pair.
    fn other_serials(&mut self, design: &Design, pair: usize) -> Compared<()> {
        let (index, serials) = (design.journal.before(pair), design.serials());
        let with = |pair: usize, serial: &[u8]| {
            let mut other = design.clone();
            other.journal.pairs[pair].serial = serial.to_vec();
            other.journal.bytes()
        };
        let new = sample::next_serial(&self.random, &serials);
        self.answered_with(design, &with(pair, &new), 16, index, "a receipt has the serial of its pair")?;
        self.answered_with(design, &with(0, &new), 16, 0, "a receipt has the serial of its pair")?;
        let used = &serials[self.random.below(pair)];
        self.answered_with(design, &with(pair, used), 30, index, "a serial that comes back gets 30")?;

        // all is right but the serial: the receipts have it, too
        let mut back = design.clone();
        let pair_back = &mut back.journal.pairs[pair];
        pair_back.serial = used.clone();
        pair_back.entries.iter_mut().for_each(|entry| entry.fields[SERIAL] = used.clone());
        let back = back.right(index).journal.bytes();
        self.answered_with(design, &back, 30, index, "a serial that comes back gets 30")?;

        let other = self.random.below(pair);
        let mut swapped = design.clone();
        swapped.journal.pairs[other].serial = serials[pair].clone();
        swapped.journal.pairs[pair].serial = serials[other].clone();
        let swapped_index = design.journal.before(other);
        let bytes = swapped.journal.bytes();
        self.answered_with(design, &bytes, 16, swapped_index, "serials that have changed places get 16")
    }

    /// The receipts count of a pair one up or one down, or far too high.
    fn other_counts(&mut self, design: &Design, pair: usize) -> Compared<()> {
        for which in [0, pair - 1, pair] {
            let after = design.journal.before(which) + design.journal.pairs[which].entries.len();
            let last = which + 1 == design.pairs();
            let with = |count: u32| {
                let mut other = design.clone();
                other.journal.pairs[which].count = count;
                other.journal.bytes()
            };
            let count = design.journal.pairs[which].count;
            // the length of the next serial is read as an empty entry
            let number = if last { 15 } else { 16 };
            for count in [count + 1, count | 1 << 16, u32::MAX] {
                self.answered_with(design, &with(count), number, after, "a receipts count that is too high")?;
            }
            self.answered_with(design, &with(count - 1), 21, after - 1, "a receipts count that is too low gets 21")?;
        }
        Ok(())
    }

    /// The last entry of a pair moved to the next one, and the first to the one before.
    fn moved_entries(&mut self, design: &Design, pair: usize) -> Compared<()> {
        let index = design.journal.before(pair);
        let mut on = design.clone();
        let moved = on.journal.pairs[pair - 1].entries.pop().expect("an entry");
        on.journal.pairs[pair].entries.insert(0, moved);
        on.journal.pairs[pair - 1].count -= 1;
        on.journal.pairs[pair].count += 1;
        let bytes = on.journal.bytes();
        self.answered_with(design, &bytes, 16, index - 1, "an entry moved to the next pair gets 16")?;
        let mut back = design.clone();
        let moved = back.journal.pairs[pair].entries.remove(0);
        back.journal.pairs[pair - 1].entries.push(moved);
        back.journal.pairs[pair - 1].count += 1;
        back.journal.pairs[pair].count -= 1;
        let bytes = back.journal.bytes();
        self.answered_with(design, &bytes, 16, index, "an entry moved to the pair before gets 16")
    }

    /// A receipt that has another serial of the register than its pair.
    fn old_serial(&mut self, design: &Design, pair: usize) -> Compared<()> {
        let (pairs, serials) = (design.pairs(), design.serials());
        let other = (pair + self.random.pick(&[pairs - 1, 1 + self.random.below(pairs - 1)])) % pairs;
        let place = self.random.below(design.journal.pairs[pair].entries.len());
        let index = design.journal.before(pair) + place;
        let mut old = design.clone();
        old.journal.pairs[pair].entries[place].fields[SERIAL] = serials[other].clone();
        let bytes = old.right(index).journal.bytes();
        self.answered_with(design, &bytes, 16, index, "a receipt has no serial but that of its pair")
    }

    /// Number or chain that start again in a later pair.
    fn restarted(&mut self, design: &Design, pair: usize) -> Compared<()> {
        let index = design.journal.before(pair);
        let mut chain = design.clone();
        let id = chain.journal.id.clone();
        chain.journal.entry(index).fields[CHAIN] = padded_text(&chain_value(&id));
        chain.journal.chain_right(index + 1);
        self.answered_with(design, &chain.journal.bytes(), 19, index, "the chain runs on")?;

        let mut number = design.clone();
        number.journal.entry(index).fields[NUMBER] = design.clone().journal.entry(index - 1).fields[NUMBER].clone();
        let bytes = number.right(index).journal.bytes();
        self.answered_with(design, &bytes, 17, index, "the numbers run on")
    }

    /// The counter of a receipt in the second pair is that of this receipt alone; those before it have added something.
    fn restarted_counter(&mut self) -> Compared<()> {
        let mut counter = self.designed(&[2, 1]);
        let Settings { key, width, .. } = counter.settings;
        for entry in counter.journal.entries_mut() {
            entry.fields[COUNTER] = b"AAAAAAA=".to_vec();
        }
        let mut counter = counter.right(0);
        self.valid_pairs(&counter)?;
        let mut alone = counter.clone();
        alone.journal.pairs[0].entries.clear();
        alone.journal.counters_right(0, &key, width as usize);
        counter.journal.entry(2).fields[COUNTER] = alone.journal.entry(0).fields[COUNTER].clone();
        let bytes = counter.journal.bytes();
        self.answered_with(&counter, &bytes, 20, 2, "the counter runs on")
    }
}
