//! What a round does with registers that share a key (request E7).

use super::{Accepted, Round};
use crate::base64;
use crate::compare::{Compared, demand};
use crate::layout::{STATE, settings_bytes, state_of};
use crate::model::{COUNTER, Entry};
use crate::receipt::{Details, LONGEST_COMPACT};
use crate::sample::{self, DIGITS};
use crate::settings::{Name, Settings};

/// The questions of Open for a shared key, in their order.
const QUESTIONS: [u32; 7] = [6, 1, 2, 32, 3, 4, 5];

/// A register by its ID, and a receipt number: what is hashed for an IV.
type Hashed = (Vec<u8>, u32);

/// ID and number as spelled.
fn hash_input((id, number): &Hashed) -> Vec<u8> {
    [&id[..], number.to_string().as_bytes()].concat()
}

/// Every ID and number with this hash input.
fn all_with_input(input: &[u8]) -> Vec<Hashed> {
    let ids = (1..=input.len().min(32)).map(|end| input[..end].to_vec());
    let number = |id: &[u8]| String::from_utf8_lossy(&input[id.len()..]).parse().ok().filter(|&number| number > 0);
    let pairs = ids.filter_map(|id| number(&id).map(|number| (id, number)));
    pairs.filter(|pair| hash_input(pair) == input).collect()
}

fn combined(one: &[u8], other: &[u8]) -> Vec<u8> {
    one.iter().zip(other).map(|(a, b)| a ^ b).collect()
}

impl Round<'_> {
    // ---- both ways to open

    /// Opens a register in one of the two ways.
    pub(super) fn opened(
        &mut self,
        shared: bool,
        settings: &[u8],
        journal: &mut [u8],
        state: &mut [u8],
    ) -> Compared<u32> {
        if shared {
            self.compare.open_shared(settings, journal, state)
        } else {
            self.compare.open(settings, journal, state)
        }
    }

    /// Opens a register both ways on the same bytes. For a shared key there is 32 between 2 and 3, and all else is the same.
    /// Returns both numbers, that for a shared key last.
    pub(super) fn opened_both_ways(&mut self, settings: &[u8], journal: &[u8], state: &[u8]) -> Compared<[u32; 2]> {
        let mut alone = (journal.to_vec(), state.to_vec());
        let mut shared = alone.clone();
        let numbers = [
            self.compare.open(settings, &mut alone.0, &mut alone.1)?,
            self.compare.open_shared(settings, &mut shared.0, &mut shared.1)?,
        ];
        self.compare.figures(&alone.1)?;
        let holds = match numbers {
            [0 | 3 | 4 | 5, 32] => shared == (journal.to_vec(), vec![0; STATE]),
            [number, other] => number == other && alone == shared,
        };
        demand(holds, "a shared key adds 32 between 2 and 3 and nothing else", settings)?;
        Ok(numbers)
    }

    /// Opens a register with this ID both ways, with all else good.
    fn id_opened(&mut self, id: Name) -> Compared<[u32; 2]> {
        let settings = Settings { id, ..sample::settings(&self.random) };
        let journal = self.garbage(100);
        self.opened_both_ways(&settings_bytes(&settings), &journal, &[0x5a; STATE])
    }

    /// Each question answered by "no" together with each other one, and alone: the first decides.
    pub(super) fn order_of_open(&mut self) -> Compared<()> {
        for (place, &first) in QUESTIONS.iter().enumerate() {
            for &other in &QUESTIONS[place..] {
                self.refused_by([first, other])?;
            }
        }
        Ok(())
    }

    /// Open both ways, with "no" to these questions, which stand in their order.
    fn refused_by(&mut self, wrong: [u32; 2]) -> Compared<()> {
        let id = if wrong.contains(&32) { sample::id_with_digit } else { sample::id_without_digit }(&self.random);
        let mut settings = Settings { id: Name::of(&id), ..sample::settings(&self.random) };
        let head = settings.head_length();
        for number in (1..=4).filter(|number| wrong.contains(number)) {
            sample::spoil_settings_by(&self.random, &mut settings, number);
        }
        let mut bytes = settings_bytes(&settings).to_vec();
        if wrong.contains(&1) && self.random.once_in(4) {
            bytes = self.other_length(&bytes);
        }
        let room = if wrong.contains(&5) { self.random.pick(&[head - 1, head - 4, 0]) } else { head };
        let journal = self.garbage(room);
        let mut state = self.garbage(STATE);
        if wrong.contains(&6) {
            state = self.other_length(&state);
        }
        let numbers = self.opened_both_ways(&bytes, &journal, &state)?;
        let alone = wrong.into_iter().find(|&number| number != 32).unwrap_or(0);
        demand(numbers == [alone, wrong[0]], "the first question decides", &bytes)
    }

    // ---- the last byte of an ID

    /// Every last byte that an ID can have.
    pub(super) fn last_bytes(&mut self) -> Compared<()> {
        for last in (33..=126).filter(|&byte| byte != b'_') {
            let length = self.random.pick(&[1, 2, 31, 32, 1 + self.random.below(32)]);
            self.last_byte(length, last)?;
        }
        for &last in b"0123456789/:" {
            self.last_byte(1, last)?;
            self.last_byte(32, last)?;
        }
        Ok(())
    }

    fn last_byte(&mut self, length: usize, last: u8) -> Compared<()> {
        let id = sample::id_ending_in(&self.random, length, last);
        let number = if DIGITS.contains(&last) { 32 } else { 0 };
        let numbers = self.id_opened(Name::of(&id))?;
        demand(numbers == [0, number], "a shared key asks whether the last byte is a digit", &id)
    }

    /// IDs with a length that they can't have, a byte after their end, or a foreign byte: digits or not, they get 2.
    pub(super) fn bad_ids_with_digits(&mut self) -> Compared<()> {
        for byte in [self.random.pick(DIGITS), self.random.pick(b"/:-Aaf")] {
            let short = 1 + self.random.below(31) as u64;
            for length in [0, short, 33, 64, 256 + short, (1 << 32) + short, (1 << 63) + short, u64::MAX] {
                self.bad_id(Name { bytes: [byte; 32], length })?;
            }
            // zeros after the end, but for one place
            let mut id = Name::of(&sample::id_with_digit(&self.random)[..1]);
            id.bytes[1 + self.random.below(31)] = byte;
            self.bad_id(id)?;
            let mut id = sample::id_ending_in(&self.random, 2 + self.random.below(31), byte);
            let place = self.random.below(id.len() - 1);
            id[place] = sample::no_id_byte(&self.random);
            self.bad_id(Name::of(&id))?;
        }
        Ok(())
    }

    fn bad_id(&mut self, id: Name) -> Compared<()> {
        let numbers = self.id_opened(id)?;
        demand(numbers == [2, 2], "the last byte is asked of a good ID", &id.bytes)
    }

    // ---- what is hashed

    /// Any good ID and a number over 1. Where the ID ends in digits, others have the same hash input.
    fn hashed(&self) -> Hashed {
        let mut id = match self.random.below(4) {
            0 => sample::id(&self.random),
            1 => sample::id_with_digit(&self.random),
            _ => sample::id_without_digit(&self.random),
        };
        if self.random.once_in(2) {
            id.truncate(1 + self.random.below(4));
        }
        (id, self.number())
    }

    fn number(&self) -> u32 {
        let number = self.random.pick(&[2, 9, 10, 12, 99, 100, 1_000_000_000, u32::MAX, self.random.next() as u32]);
        number.max(2)
    }

    /// Two registers that share a key have equal hash inputs only for equal IDs and numbers.
    pub(super) fn hash_inputs(&mut self) -> Compared<()> {
        for _ in 0..3 {
            let hashed = self.hashed();
            self.taken_once(&hashed)?;
        }
        for _ in 0..8 {
            self.two_registers()?;
        }
        Ok(())
    }

    /// Every ID that has a number with this hash input can be opened, but at most one of them for a shared key.
    fn taken_once(&mut self, hashed: &Hashed) -> Compared<()> {
        let input = hash_input(hashed);
        let all = all_with_input(&input);
        demand(all.contains(hashed), "an ID and a number are found in their hash input", &input)?;
        let mut taken = Vec::new();
        for pair in all {
            let [alone, shared] = self.id_opened(Name::of(&pair.0))?;
            demand(alone == 0, "an ID from a hash input is good", &pair.0)?;
            if shared == 0 {
                taken.push(pair);
            }
        }
        demand(taken.len() <= 1, "a hash input has one register that shares its key", &input)
    }

    /// Two registers that are both opened for a shared key, and two numbers.
    fn two_registers(&mut self) -> Compared<()> {
        let Some([one, other]) = self.pair()? else { return Ok(()) };
        let inputs = [hash_input(&one), hash_input(&other)];
        let equal = inputs[0] == inputs[1];
        demand(equal == (one == other), "hash inputs are equal for one ID and one number alone", &inputs.concat())
    }

    /// Two IDs with numbers over 1 whose hash inputs are alike; None where one of the IDs is not opened for a shared key.
    fn pair(&mut self) -> Compared<Option<[Hashed; 2]>> {
        let one = self.hashed();
        let other = self.hashed_like(&one);
        for (id, _) in [&one, &other] {
            if self.id_opened(Name::of(id))? != [0, 0] {
                return Ok(None);
            }
        }
        Ok(Some([one, other]))
    }

    /// Another ID and number made of these. The digits of the number may go over to the ID.
    fn hashed_like(&self, (id, number): &Hashed) -> Hashed {
        let digits = number.to_string().into_bytes();
        let (moved, rest) = digits.split_at(self.random.below(digits.len() + 1));
        let end = &[self.random.pick(b"/:-A")][..];
        let mut other = match self.random.below(6) {
            0 => id.clone(),
            1 => [id, moved].concat(),
            2 => [id, moved, end].concat(),
            3 => [id, end].concat(),
            4 => [&id[..id.len() - 1], moved, end].concat(),
            _ => id[..1 + self.random.below(id.len())].to_vec(),
        };
        other.truncate(32);
        let rest = String::from_utf8_lossy(rest).parse().unwrap_or(0);
        let numbers = [*number, rest, rest, number.wrapping_add(1), number / 10, self.number()];
        (other, self.random.pick(&numbers).max(2))
    }

    // ---- the key stream

    /// One IV comes twice under a key where the key is not said to be shared; where it is, registers have their own.
    pub(super) fn key_streams(&mut self) -> Compared<()> {
        let (one, other) = ((b"A1".to_vec(), 2), (b"A".to_vec(), 12));
        self.one_stream(&one, &other)?;
        let [one, other] = self.equal_inputs();
        self.one_stream(&one, &other)?;
        self.two_streams()
    }

    /// Two IDs with numbers over 1 that have one hash input.
    fn equal_inputs(&self) -> [Hashed; 2] {
        loop {
            let mut all = all_with_input(&hash_input(&self.hashed()));
            all.retain(|pair| pair.1 > 1);
            if let [first, .., last] = &all[..] {
                return [first.clone(), last.clone()];
            }
        }
    }

    /// Two receipts with one hash input under one key: their counter fields differ as their counters do.
    fn one_stream(&mut self, one: &Hashed, other: &Hashed) -> Compared<()> {
        let settings = sample::settings(&self.random);
        let [(field, counter), (other_field, other_counter)] =
            [self.counter_issued(&settings, one, false)?, self.counter_issued(&settings, other, false)?];
        let fields = combined(&field, &other_field);
        demand(fields == combined(&counter, &other_counter), "one hash input gives one key stream", &hash_input(one))
    }

    /// Two registers that share a key have two key streams, but for one ID and one number. Eight bytes are not equal by
    /// chance.
    fn two_streams(&mut self) -> Compared<()> {
        let Some([one, other]) = self.pair()? else { return Ok(()) };
        let settings = Settings { width: 8, ..sample::settings(&self.random) };
        let [(field, counter), (other_field, other_counter)] =
            [self.counter_issued(&settings, &one, true)?, self.counter_issued(&settings, &other, true)?];
        let equal = combined(&field, &counter) == combined(&other_field, &other_counter);
        demand(equal == (one == other), "registers that share a key have their own key streams", &hash_input(&one))
    }

    /// A standard receipt with this number, over 1, of a register with this ID: the bytes of its counter field, and those of
    /// its counter.
    fn counter_issued(
        &mut self,
        settings: &Settings,
        (id, number): &Hashed,
        shared: bool,
    ) -> Compared<(Vec<u8>, Vec<u8>)> {
        let settings = Settings { id: Name::of(id), ..*settings };
        let head = settings.head_length();
        let mut journal = self.garbage(head + 2 * (2 + LONGEST_COMPACT));
        let mut state = self.garbage(STATE);
        let bytes = settings_bytes(&settings);
        let opened = self.opened(shared, &bytes, &mut journal, &mut state)?;
        demand(opened == 0, "a register of a pair is opened", id)?;
        let date = sample::date(&self.random);
        let start = Details { number: 1, date, amounts: [0; 5], kind: 0 };
        let amounts = std::array::from_fn(|_| self.random.between(-1_000_000, 1_000_000));
        for details in [start, Details { number: *number, amounts, ..start }] {
            let issued = self.compare.issue(&mut state, &details, &[], &mut journal)?;
            demand(issued == 0, "a register of a pair issues", id)?;
        }
        let held = state_of(&state);
        journal.truncate(held.journal_length as usize);
        let accepted = Accepted { settings, journal, receipts: Vec::new() };
        let field = &Entry::of(&accepted.forms()[1]).fields[COUNTER];
        let mut hidden = vec![0; field.len()];
        let width = base64::read_padded(field, &mut hidden).unwrap_or(0);
        demand(width == accepted.width(), "a counter field has as many bytes as its width", field)?;
        hidden.truncate(width);
        Ok((hidden, held.counter.to_be_bytes()[8 - width..].to_vec()))
    }

    // ---- lists of calls

    /// A list of calls after Open for a shared key. Its journal is written again after the other Open.
    pub(super) fn shared_list(&mut self) -> Compared<()> {
        let id = Name::of(&sample::id_without_digit(&self.random));
        let settings = Settings { id, ..sample::settings(&self.random) };
        let accepted = self.call_list_of(settings, true)?;
        self.taken_over(&accepted)
    }

    /// A journal from earlier, whose ID ends in a digit: accepted still, but not begun again for a shared key.
    pub(super) fn list_from_earlier(&mut self) -> Compared<()> {
        let id = Name::of(&sample::id_with_digit(&self.random));
        let accepted = self.call_list_of(Settings { id, ..sample::settings(&self.random) }, false)?;
        let bytes = settings_bytes(&accepted.settings);
        let number = self.compare.open_shared(&bytes, &mut accepted.journal.clone(), &mut [0x5a; STATE])?;
        demand(number == 32, "a journal from earlier is not begun again", &accepted.journal)
    }
}
