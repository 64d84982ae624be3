//! What a round does at the limits of amounts and payloads, and at the ends of the counter.

use super::{Accepted, Round};
use crate::base64::{letters, padded_letters};
use crate::compare::{Compared, demand};
use crate::layout::{DETAILS, SIGNATURE, STATE, details_bytes, settings_bytes, state_bytes, state_of};
use crate::line::LONGEST_LINE;
use crate::model::{Given, Journal, Printed};
use crate::receipt::{AMOUNT_LIMIT, Date, Details, HEADER, LONGEST_COMPACT, LONGEST_INPUT, LONGEST_PAYLOAD};
use crate::register::State;
use crate::sample::{self, ENDS, FIVE_LARGEST, FORMER_AMOUNTS, LAST_AMOUNTS, NEW_AMOUNTS, NEXT_AMOUNTS};
use crate::settings::{Name, Settings};

impl Round<'_> {
    // ---- amounts

    /// Each amount at a limit or next to one, in each of the five places.
    pub(super) fn amounts_at_the_limits(&mut self) -> Compared<()> {
        let good = FORMER_AMOUNTS.into_iter().chain(NEW_AMOUNTS).chain(LAST_AMOUNTS).map(|amount| (amount, true));
        let bad = NEXT_AMOUNTS.into_iter().chain(ENDS).map(|amount| (amount, false));
        for (amount, good) in good.chain(bad) {
            self.amount_at_the_limit(amount, good)?;
        }
        Ok(())
    }

    fn amount_at_the_limit(&mut self, amount: i64, good: bool) -> Compared<()> {
        for place in 0..5 {
            self.amount_issued(amount, place, good)?;
        }
        self.amount_taken_over(amount, good)
    }

    /// Issue and Prepare of one such amount among four of any size; the counter is far from its ends.
    fn amount_issued(&mut self, amount: i64, place: usize, good: bool) -> Compared<()> {
        let state = self.started_state(self.random.between(5, 8) as u64, 0);
        let mut amounts = std::array::from_fn(|_| sample::amount(&self.random));
        amounts[place] = amount;
        let kind = self.random.pick(&[0, 1, 2]);
        let counter = if kind == 2 { 0 } else { amounts.iter().fold(0, |sum, amount| amount.wrapping_add(sum)) };
        self.answered(&state, amounts, kind, if good { Ok(counter) } else { Err(9) })
    }

    /// A journal whose second receipt has such an amount, taken over, and the receipt read.
    fn amount_taken_over(&mut self, amount: i64, good: bool) -> Compared<()> {
        let settings = sample::settings(&self.random);
        let date = sample::date(&self.random);
        let mut details = Details { number: 1, date, amounts: [0; 5], kind: 0 };
        let start = (details, sample::signature(&self.random));
        details.number = 2;
        details.amounts[self.random.below(5)] = amount;
        details.kind = self.random.pick(&[0, 1, 2]);
        let mut journal = Journal::with(&settings, &[start, (details, sample::signature(&self.random))]);

        let (bytes, number) = (journal.bytes(), if good { 0 } else { 16 });
        let taken = self.taken(&bytes, &settings.key, settings.width as usize, &mut [0x5a; STATE])?;
        demand(taken.number == number, "an amount is taken over up to the limit", &bytes)?;
        let form = journal.entry(1).form();
        let read =
            self.compare.read(&settings_bytes(&settings), &form, &mut [0x5a; DETAILS], &mut [0x5a; SIGNATURE])?;
        demand(read.number == number, "an amount is read up to the limit", &form)
    }

    // ---- the counter

    /// Every width at both its ends.
    pub(super) fn counters_at_the_ends(&mut self) -> Compared<()> {
        for width in 5..=8 {
            let end = sample::width_end(width);
            self.counter_at_the_end(width, 1, end)?;
            self.counter_at_the_end(width, -1, !end)?;
        }
        Ok(())
    }

    /// The same amounts reach the last counter from one state and are a cent too much for another, but for training.
    fn counter_at_the_end(&mut self, width: u64, sign: i64, last: i64) -> Compared<()> {
        let sum = self.random.pick(&[1, 2, FIVE_LARGEST - 1, FIVE_LARGEST, self.random.between(1, FIVE_LARGEST)]);
        let mut amounts = sample::amounts_with_sum(&self.random, sign * sum);
        let kind = self.random.pick(&[0, 1]);
        let far = self.started_state(width, last - sign * sum);
        self.answered(&far, amounts, kind, Ok(last))?;
        let near = self.started_state(width, last - sign * (sum - 1));
        self.answered(&near, amounts, kind, Err(11))?;
        self.answered(&near, amounts, 2, Ok(near.counter))?;
        // 9 comes before 11
        amounts[self.random.below(5)] = sample::bad_amount(&self.random);
        let kind = self.random.pick(&[0, 1, 2]);
        self.answered(&near, amounts, kind, Err(9))
    }

    /// Prepare and Issue of these amounts: the counter after the receipt, or the number of both.
    fn answered(&mut self, state: &State, amounts: [i64; 5], kind: u32, expected: Result<i64, u32>) -> Compared<()> {
        let details = Details { number: state.last_number + 1, date: sample::date(&self.random), amounts, kind };
        let mut bytes = state_bytes(state);
        let given = [&bytes[..], &details_bytes(&details)].concat();
        let number = expected.err().unwrap_or(0);
        let prepared = self.compare.prepare(&bytes, &details, &mut [0x5a; LONGEST_INPUT])?;
        demand(prepared.number == number, "a receipt is prepared within the limits", &given)?;

        let mut journal = vec![0x5a; state.journal_length as usize + 2 + LONGEST_COMPACT];
        let issued = self.compare.issue(&mut bytes, &details, &sample::signature(&self.random), &mut journal)?;
        demand(issued == number, "a receipt is issued within the limits", &given)?;
        let counter = expected.unwrap_or(state.counter);
        demand(state_of(&bytes).counter == counter, "the counter is that after the receipt", &given)
    }

    // ---- dates

    /// The last day of every month and the day after it, in years of both kinds and at both ends.
    pub(super) fn ends_of_the_months(&mut self) -> Compared<()> {
        let state = self.started_state(5, 0);
        let bytes = state_bytes(&state);
        for (year, month) in
            [2000, 2015, 2016, 2099].into_iter().flat_map(|year| (1..=12).map(move |month| (year, month)))
        {
            let last = sample::days(year, month);
            for (day, number) in [(last, 0), (last + 1, 8)] {
                let date = Date { year, month, day, hour: 23, minute: 59, second: 59 };
                let details = Details { number: state.last_number + 1, date, amounts: [0; 5], kind: 0 };
                let prepared = self.compare.prepare(&bytes, &details, &mut [0x5a; LONGEST_INPUT])?;
                demand(prepared.number == number, "a month ends on its last day", &details_bytes(&details))?;
            }
        }
        Ok(())
    }

    // ---- payloads

    /// Code, Uncode and Fields of payloads around the longest.
    pub(super) fn codes_at_the_limits(&mut self) -> Compared<()> {
        for payload in sample::PAYLOAD_EDGES {
            let printed = sample::printed(&self.random, [8, 8], payload);
            self.code_at_the_limit(&printed)?;
        }
        Ok(())
    }

    fn code_at_the_limit(&mut self, printed: &Printed) -> Compared<()> {
        let (form, code) = (printed.form(), printed.code());
        let good = printed.payload().len() <= LONGEST_PAYLOAD;
        let coded = self.compare.code(&form, &mut [0x5a; 400])?;
        demand(coded.number == if good { 0 } else { 22 }, "a payload has a code up to the limit", &form)?;
        let uncoded = self.compare.uncode(&code, &mut [0x5a; 400])?;
        demand(uncoded.number == if good { 0 } else { 24 }, "a code has a form up to the limit", &code)?;
        let id = self.compare.fields(&code)?;
        let field = if good { &printed.parts[1][..] } else { b"" };
        demand(code[id.start..id.start + id.length] == *field, "a code has an ID up to the limit", &code)
    }

    // ---- receipts

    /// A journal of each width with the longest receipt, through every call.
    pub(super) fn longest_receipts(&mut self) -> Compared<()> {
        for width in 5..=8 {
            let names = [Name::of(&[b'~'; 32]), Name::of(&[b'f'; 32])];
            let settings = Settings { id: names[0], serial: names[1], width, ..sample::settings(&self.random) };
            let accepted = self.with_the_longest_receipt(settings)?;
            self.written_again(&accepted)?;
            self.longest_form(&accepted.forms()[1], width)?;
        }
        Ok(())
    }

    /// The journal of a start receipt and of the longest receipt under these settings.
    fn with_the_longest_receipt(&mut self, settings: Settings) -> Compared<Accepted> {
        let mut journal = self.garbage(settings.head_length() + 2 * (2 + LONGEST_COMPACT));
        let mut state = self.garbage(STATE);
        self.compare.open(&settings_bytes(&settings), &mut journal, &mut state)?;
        let date = sample::date(&self.random);
        let start = Details { number: 1, date, amounts: [0; 5], kind: 0 };
        let longest = Details { number: u32::MAX, date, amounts: [-AMOUNT_LIMIT; 5], kind: 0 };
        let receipts: Vec<Given> = [start, longest].map(|details| (details, self.garbage(64))).to_vec();
        for (details, signature) in &receipts {
            self.prepared(&state, details)?;
            self.issued_into_room(&state, details, signature, &journal)?;
            let number = self.compare.issue(&mut state, details, signature, &mut journal)?;
            demand(number == 0, "the longest receipt is issued", &journal)?;
        }
        journal.truncate(state_of(&state).journal_length as usize);
        let mut taken = self.garbage(STATE);
        let answer = self.taken(&journal, &settings.key, settings.width as usize, &mut taken)?;
        demand(answer.number == 0 && taken == state, "the longest receipt is taken over", &journal)?;
        Ok(Accepted { settings, journal, receipts })
    }

    /// The longest form of this width, its code there and back, and its line.
    fn longest_form(&mut self, form: &[u8], width: u64) -> Compared<()> {
        let code = self.coded(form)?;
        self.uncoded(&code)?;
        let payload = LONGEST_PAYLOAD - padded_letters(8) + padded_letters(width as usize);
        let letters = HEADER.len() + 1 + letters(payload) + 1 + letters(64);
        demand(form.len() == letters && form.len() <= LONGEST_COMPACT, "the longest form is reached", form)?;
        let line = self.line_of_a_receipt(form)?;
        // five bytes have eight letters in both spellings
        let longest = if width == 5 { LONGEST_LINE - 8 } else { LONGEST_LINE };
        demand(line == longest, "the longest line of a receipt is reached", form)
    }
}
