//! A width that receipts with the largest amounts fill to its end: the whole journal is taken over, and a cent more is
//! refused.

use crate::calls::{Calls, TakenOver};
use crate::compare::{Compare, Compared, demand};
use crate::layout::{STATE, settings_bytes, state_of};
use crate::model::{Entry, Journal, group_bytes};
use crate::random::Random;
use crate::receipt::{AMOUNT_LIMIT, Date, Details, LONGEST_COMPACT};
use crate::sample::{self, FIVE_LARGEST};
use crate::settings::Settings;

/// Fills the width of the settings to one end, given as the sign of the counters there and the last of them. One side
/// writes the receipts before the last; all else is compared. Returns the number of receipts.
pub fn fill_width(
    compare: &mut Compare,
    side: &dyn Calls,
    random: &Random,
    settings: &Settings,
    (sign, last): (i64, i64),
) -> Compared<u32> {
    let largest = (last / FIVE_LARGEST).unsigned_abs() as usize;
    // with the first receipt, the last one, and one more
    let mut filling = Filling::opened(side, settings, sample::date(random), largest + 3)?;
    filling.write(side, [0; 5], 1)?;
    filling.write(side, [sign * AMOUNT_LIMIT; 5], largest)?;
    filling.reach(compare, sample::amounts_with_sum(random, last % FIVE_LARGEST), last)?;
    filling.take_over(compare)?;
    filling.export(compare)?;
    for kind in [0, 1] {
        filling.go_beyond(compare, [sign, 0, 0, 0, 0], kind)?;
    }
    Ok(state_of(&filling.state).receipts)
}

/// A register whose counter goes to an end of its width. Its device has failed.
struct Filling<'a> {
    settings: &'a Settings,
    date: Date,
    journal: Vec<u8>,
    state: [u8; STATE],
}

impl<'a> Filling<'a> {
    /// A register with room for so many receipts.
    fn opened(side: &dyn Calls, settings: &'a Settings, date: Date, receipts: usize) -> Compared<Self> {
        let mut journal = vec![0; settings.head_length() + receipts * (2 + LONGEST_COMPACT)];
        let mut state = [0; STATE];
        let number = side.open(&settings_bytes(settings), &mut journal, &mut state);
        demand(number == 0, "a register is opened", &state)?;
        Ok(Filling { settings, date, journal, state })
    }

    fn width(&self) -> usize {
        self.settings.width as usize
    }

    fn next(&self, amounts: [i64; 5], kind: u32) -> Details {
        Details { number: state_of(&self.state).last_number + 1, date: self.date, amounts, kind }
    }

    /// So many standard receipts by one side.
    fn write(&mut self, side: &dyn Calls, amounts: [i64; 5], times: usize) -> Compared<()> {
        for _ in 0..times {
            let details = self.next(amounts, 0);
            let number = side.issue(&mut self.state, &details, &[], &mut self.journal);
            demand(number == 0, "a long journal is written", &self.state)?;
        }
        Ok(())
    }

    /// The receipt that reaches the last counter.
    fn reach(&mut self, compare: &mut Compare, amounts: [i64; 5], last: i64) -> Compared<()> {
        let details = self.next(amounts, 0);
        let number = compare.issue(&mut self.state, &details, &[], &mut self.journal)?;
        let what = format!("width {} is filled to its end", self.width());
        demand(number == 0 && state_of(&self.state).counter == last, &what, &self.state)
    }

    /// The journal as far as it is written.
    fn whole(&self) -> &[u8] {
        &self.journal[..state_of(&self.state).journal_length as usize]
    }

    /// The whole journal gives the state after it, also month by month.
    fn take_over(&self, compare: &mut Compare) -> Compared<()> {
        let mut taken = [0; STATE];
        let mut months = [1 + state_of(&self.state).receipts as usize / 12; 13];
        months[12] = usize::MAX;
        let answer = compare.take_over_in_parts(self.whole(), &self.settings.key, self.width(), &months, &mut taken)?;
        demand(answer.number == 0 && taken == self.state, "a long journal is accepted", &self.state)
    }

    /// The export of the whole journal reads back to it.
    fn export(&self, compare: &mut Compare) -> Compared<()> {
        let (journal, key) = (self.whole(), &self.settings.key);
        let receipts = state_of(&self.state).receipts as usize;
        let certificates = group_bytes(&[b"certificate".to_vec()]);
        let mut text = vec![0; journal.len() + receipts + 200];
        let exported = compare.export(journal, key, self.width(), &certificates, &mut text)?;
        demand(exported.number == 0, "a long journal is exported", &self.state)?;
        text.truncate(exported.length);
        let (mut back, mut state) = (vec![0; journal.len()], [0; STATE]);
        let read = compare.read_export(&text, key, self.width(), &mut back, &mut state)?;
        demand(read.number == 0 && back == journal && state == self.state, "a long export reads back", &self.state)
    }

    /// One more receipt, which is beyond the end: 11, and 20 for a journal that has it.
    fn go_beyond(&mut self, compare: &mut Compare, amounts: [i64; 5], kind: u32) -> Compared<()> {
        let details = self.next(amounts, kind);
        let number = compare.issue(&mut self.state, &details, &[], &mut self.journal)?;
        demand(number == 11, "a cent beyond the end is not issued", &self.state)?;
        let refused = TakenOver { number: 20, index: state_of(&self.state).receipts };
        let answer = compare.take_over(&self.with(&details), &self.settings.key, self.width(), &mut [0; STATE])?;
        demand(answer == refused, "a cent beyond the end is not taken over", &self.state)
    }

    /// The journal with one more receipt, whatever its amounts are.
    fn with(&self, details: &Details) -> Vec<u8> {
        let mut journal = Journal::of(self.whole());
        let pair = &mut journal.pairs[0];
        let place = pair.entries.len();
        pair.entries.push(Entry::with(self.settings, &(*details, Vec::new())));
        pair.count += 1;
        journal.all_right(place, self.settings);
        journal.bytes()
    }
}
