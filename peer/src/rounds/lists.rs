//! What a round does with lists of receipts that are issued with a failed device (request E3).

use super::Round;
use super::pairs::used_serials;
use crate::calls::Listed;
use crate::compare::{Compared, demand};
use crate::layout::{DETAILS, STATE, list_bytes, settings_bytes, state_bytes, state_of};
use crate::model::Given;
use crate::receipt::{AMOUNT_LIMIT, Details, LONGEST_COMPACT};
use crate::register::State;
use crate::sample::{self, FIVE_LARGEST};

/// The most receipts of a list here.
const MOST: usize = 12;

/// What can be wrong with a receipt at any place of a list.
#[derive(Clone, Copy)]
enum Wrong {
    Number,
    Kind,
    Date,
    Amount,
    Counter,
}

impl Wrong {
    const ALL: [Wrong; 5] = [Wrong::Number, Wrong::Kind, Wrong::Date, Wrong::Amount, Wrong::Counter];

    fn number(self) -> u32 {
        match self {
            Wrong::Number | Wrong::Kind => 7,
            Wrong::Date => 8,
            Wrong::Amount => 9,
            Wrong::Counter => 11,
        }
    }
}

/// A register and a list of good receipts for it.
struct Design {
    list: Vec<Details>,
    /// State and buffer before the list, and as the single calls leave them after each receipt.
    after: Vec<(Vec<u8>, Vec<u8>)>,
    /// An end of the counter: its sign, and the last counter there.
    end: (i64, i64),
}

impl Design {
    fn receipts(&self) -> usize {
        self.list.len()
    }

    /// The whole list as bytes.
    fn bytes(&self) -> Vec<u8> {
        list_bytes(&self.list)
    }

    /// The state after so many receipts.
    fn held(&self, issued: usize) -> State {
        state_of(&self.after[issued].0)
    }

    /// The length of the journal after so many receipts.
    fn length(&self, issued: usize) -> usize {
        self.held(issued).journal_length as usize
    }

    /// The size of the buffer, which has room for all.
    fn room(&self) -> usize {
        self.after[0].1.len()
    }
}

impl Round<'_> {
    // ---- lists whose answer is known

    /// A list of good receipts, and lists made of it: with a refused receipt at every place, into a buffer that is full at every
    /// place, cut, empty, and from bad states.
    pub(super) fn lists_by_design(&mut self) -> Compared<()> {
        let most = self.random.pick(&[MOST / 2, MOST]);
        let design = self.list_near_the_end(1 + self.random.below(most))?;
        self.refused_at_every_place(&design)?;
        self.full_at_every_place(&design)?;
        self.shorter_after_a_longer()?;
        self.cut_lists(&design)?;
        self.empty_lists(&design)?;
        self.lists_from_bad_states(&design)
    }

    /// A register whose counter is near an end of its width, a list of so many good receipts, and the single calls. The last receipt
    /// may reach the last number, or the last counter.
    fn list_near_the_end(&mut self, receipts: usize) -> Compared<Design> {
        let width = self.random.between(5, 8) as u64;
        let end @ (sign, last) = self.end_of(width);
        // more than the receipts before the last one can add
        let left = self.random.between(500_000 * MOST as i64, FIVE_LARGEST / 2);
        let mut state = self.started_state(width, last - sign * left);
        state.last_number = state.last_number.min(u32::MAX - 1000);
        let mut list = self.good_receipts(state.last_number, receipts);
        let counter = list[..receipts - 1].iter().fold(state.counter, |counter, details| counter + added(details));
        let receipt = list.last_mut().expect("a receipt");
        if self.random.once_in(2) {
            receipt.number = u32::MAX;
        }
        if self.random.once_in(2) {
            receipt.kind = self.random.pick(&[0, 1]);
            receipt.amounts = sample::amounts_with_sum(&self.random, last - counter);
        }
        let room = state.journal_length as usize + receipts * (2 + LONGEST_COMPACT);
        let journal = self.garbage(room);
        self.single_calls(state_bytes(&state).to_vec(), journal, list, end)
    }

    /// So many receipts with numbers that rise from this one.
    fn good_receipts(&self, mut number: u32, receipts: usize) -> Vec<Details> {
        let mut next = || {
            number += 1 + self.random.below(20) as u32;
            let amounts = std::array::from_fn(|_| self.random.between(-100_000, 100_000));
            Details { number, date: sample::date(&self.random), amounts, kind: self.random.pick(&[0, 0, 1, 2]) }
        };
        (0..receipts).map(|_| next()).collect()
    }

    /// The single calls of a list of good receipts, each with an empty signature. The buffer is then cut near its last byte.
    fn single_calls(
        &mut self,
        mut state: Vec<u8>,
        mut journal: Vec<u8>,
        list: Vec<Details>,
        end: (i64, i64),
    ) -> Compared<Design> {
        let mut after = vec![(state.clone(), journal.clone())];
        for details in &list {
            let number = self.compare.issue(&mut state, details, &[], &mut journal)?;
            demand(number == 0, "a good receipt is issued", &state)?;
            after.push((state.clone(), journal.clone()));
        }
        let room = state_of(&state).journal_length as usize + self.random.below(4);
        after.iter_mut().for_each(|(_, journal)| journal.truncate(room));
        Ok(Design { list, after, end })
    }

    /// A list from the state of a design, into a buffer of this size: the answer, and the state and buffer that the single calls
    /// left.
    fn listed(&mut self, design: &Design, list: &[u8], room: usize, number: u32, issued: usize) -> Compared<()> {
        let (mut state, mut journal) = design.after[0].clone();
        journal.truncate(room);
        let listed = self.compare.issue_list(&mut state, list, &mut journal)?;
        demand(listed == Listed { number, issued }, "a list is issued up to its first refused receipt", list)?;
        let (held, written) = &design.after[issued];
        demand(state == *held, "a list leaves the state of its last issued receipt", list)?;
        demand(journal == written[..room], "a list leaves the journal of its last issued receipt", list)
    }

    /// The receipt at this place with one thing wrong.
    fn spoiled(&self, design: &Design, place: usize, wrong: Wrong) -> Details {
        let (held, (sign, last)) = (design.held(place), design.end);
        let mut details = design.list[place];
        match wrong {
            Wrong::Number => {
                let number = held.last_number;
                details.number = self.random.pick(&[number, number, number.saturating_sub(1), number.min(1), 0]);
            }
            Wrong::Kind => details.kind = sample::bad_kind(&self.random),
            Wrong::Date => details.date = sample::bad_date(&self.random),
            Wrong::Amount => details.amounts[self.random.below(5)] = sample::bad_amount(&self.random),
            Wrong::Counter => {
                details.kind = self.random.pick(&[0, 1]);
                details.amounts = sample::amounts_with_sum(&self.random, last - held.counter + sign);
            }
        }
        details
    }

    /// Each thing wrong at each place. Often a later receipt is wrong, too, or the buffer is full there: the first decides. Once for
    /// each thing the list goes on from the refused receipt, which is corrected.
    fn refused_at_every_place(&mut self, design: &Design) -> Compared<()> {
        let receipts = design.receipts();
        for wrong in Wrong::ALL {
            for place in 0..receipts {
                let mut list = design.list.clone();
                list[place] = self.spoiled(design, place, wrong);
                let later = place + 1 + self.random.below(3);
                if later < receipts {
                    list[later] = self.spoiled(design, later, self.random.pick(&Wrong::ALL));
                }
                let room = if self.random.once_in(3) { design.length(place) } else { design.room() };
                self.listed(design, &list_bytes(&list), room, wrong.number(), place)?;
            }
            self.goes_on(design, self.random.below(receipts), wrong)?;
        }
        Ok(())
    }

    /// A list that is refused at this place, and then from there on with the good receipt.
    fn goes_on(&mut self, design: &Design, place: usize, wrong: Wrong) -> Compared<()> {
        let (mut state, mut journal) = design.after[0].clone();
        let mut list = design.list.clone();
        list[place] = self.spoiled(design, place, wrong);
        let refused = self.compare.issue_list(&mut state, &list_bytes(&list), &mut journal)?;
        let rest = list_bytes(&design.list[refused.issued.min(place)..]);
        let listed = self.compare.issue_list(&mut state, &rest, &mut journal)?;
        let answers = (refused.issued, listed.number, listed.issued);
        demand(answers == (place, 0, design.receipts() - place), "a list goes on after a refusal", &rest)?;
        demand(Some(&(state, journal)) == design.after.last(), "a list that went on leaves the same", &rest)
    }

    /// A buffer that has room for exactly so many receipts, and one that is a byte shorter.
    fn full_at_every_place(&mut self, design: &Design) -> Compared<()> {
        let (receipts, list) = (design.receipts(), design.bytes());
        self.listed(design, &list, design.length(0) - 1, 6, 0)?;
        for fit in 0..receipts {
            self.listed(design, &list, design.length(fit), 13, fit)?;
            self.listed(design, &list, design.length(fit + 1) - 1, 13, fit)?;
        }
        self.listed(design, &list, design.length(receipts), 0, receipts)
    }

    /// After a receipt that does not fit comes one that would.
    fn shorter_after_a_longer(&mut self) -> Compared<()> {
        let design = self.list_near_the_end(1 + self.random.below(3))?;
        let place = design.receipts() - 1;
        let short = Details { amounts: [0; 5], kind: 2, ..design.list[place] };
        let long = Details { amounts: [-AMOUNT_LIMIT; 5], ..short };
        let (mut state, mut journal) = design.after[place].clone();
        let number = self.compare.issue(&mut state, &short, &[], &mut journal)?;
        demand(number == 0, "a short receipt is issued", &state)?;
        let room = state_of(&state).journal_length as usize;
        let list = [&design.list[..place], &[long, short]].concat();
        self.listed(&design, &list_bytes(&list), room, 13, place)
    }

    /// Bytes that are no whole number of details, from a sound state and from a bad one.
    fn cut_lists(&mut self, design: &Design) -> Compared<()> {
        let all = [design.bytes(), self.garbage(DETAILS)].concat();
        let whole = DETAILS * (1 + self.random.below(design.receipts()));
        let part = 1 + self.random.below(DETAILS - 1);
        for length in [1, DETAILS - 1, DETAILS + 1, whole - 1, whole + 1, whole + part] {
            let room = self.random.pick(&[design.room(), design.length(0)]);
            self.listed(design, &all[..length], room, 7, 0)?;
            let bad = self.bad_state(design);
            self.nothing_issued(&bad, &all[..length], &design.after[0].1, 6)?;
        }
        Ok(())
    }

    /// The state of a design with something wrong, or of another length.
    fn bad_state(&self, design: &Design) -> Vec<u8> {
        if self.random.once_in(4) {
            return self.other_length(&design.after[0].0);
        }
        let mut state = design.held(0);
        sample::spoil_state(&self.random, &mut state, design.room());
        state_bytes(&state).to_vec()
    }

    /// A list of which nothing is issued, with this number.
    fn nothing_issued(&mut self, state: &[u8], list: &[u8], journal: &[u8], number: u32) -> Compared<()> {
        let listed = self.compare.issue_list(&mut state.to_vec(), list, &mut journal.to_vec())?;
        demand(listed == Listed { number, issued: 0 }, "nothing of a list is issued", &[state, list].concat())
    }

    /// No receipts at all: whatever the state and the buffer are, this is not refused.
    fn empty_lists(&mut self, design: &Design) -> Compared<()> {
        let (state, journal) = &design.after[0];
        let (bad, other, any) = (self.bad_state(design), self.other_length(state), self.garbage(STATE));
        for state in [state, &bad, &other, &any, &vec![0; STATE], &Vec::new()] {
            let room = self.random.pick(&[design.room(), design.length(0), design.length(0) - 1, 0]);
            self.nothing_issued(state, &[], &journal[..room], 0)?;
        }
        Ok(())
    }

    /// A bad state, and a first receipt that is good or has something wrong.
    fn lists_from_bad_states(&mut self, design: &Design) -> Compared<()> {
        for wrong in [None].into_iter().chain(Wrong::ALL.map(Some)) {
            let mut list = design.list.clone();
            if let Some(wrong) = wrong {
                list[0] = self.spoiled(design, 0, wrong);
            }
            let bad = self.bad_state(design);
            self.nothing_issued(&bad, &list_bytes(&list), &design.after[0].1, 6)?;
        }
        Ok(())
    }

    // ---- the first receipt

    /// A register without receipts: a list must begin with a start receipt, and may go on with any. The journal is taken over.
    pub(super) fn list_with_the_start(&mut self) -> Compared<()> {
        let settings = sample::settings(&self.random);
        let receipts = 1 + self.random.below(3);
        let mut journal = self.garbage(settings.head_length() + 40 + receipts * (2 + LONGEST_COMPACT));
        let mut state = self.garbage(STATE);
        self.compare.open(&settings_bytes(&settings), &mut journal, &mut state)?;
        if self.random.once_in(2) {
            self.change_to_another(&mut state, &mut journal)?;
        }
        let mut list = self.good_receipts(0, receipts);
        list[0] = Details { amounts: [0; 5], kind: 0, ..list[0] };
        let design = self.single_calls(state, journal, list, (0, 0))?;
        self.refused_starts(&design)?;
        self.listed(&design, &design.bytes(), design.room(), 0, receipts)?;
        let Design { list, mut after, .. } = design;
        let (state, journal) = after.pop().expect("the last one");
        self.accepted(settings, &state, journal, with_failed_device(&list))?;
        Ok(())
    }

    /// A first receipt that is no start receipt: 10, but for 7 to 9.
    fn refused_starts(&mut self, design: &Design) -> Compared<()> {
        let start = design.list[0];
        let cent = self.random.pick(&[[0, 0, 0, 0, 1], [-1, 0, 0, 0, 0], [1, -1, 0, 0, 0]]);
        for (amounts, kind) in [([0; 5], 1), ([0; 5], 2), (cent, 0), (cent, 1), (cent, 2)] {
            let mut list = design.list.clone();
            list[0] = Details { amounts, kind, ..start };
            let room = self.random.pick(&[design.room(), design.length(0)]);
            self.listed(design, &list_bytes(&list), room, 10, 0)?;
            let wrong = self.random.pick(&[Wrong::Number, Wrong::Kind, Wrong::Date, Wrong::Amount]);
            list[0] = Details { amounts, ..self.spoiled(design, 0, wrong) };
            if let Wrong::Amount = wrong {
                list[0].amounts[self.random.below(5)] = sample::bad_amount(&self.random);
            }
            self.listed(design, &list_bytes(&list), room, wrong.number(), 0)?;
        }
        Ok(())
    }

    fn change_to_another(&mut self, state: &mut [u8], journal: &mut [u8]) -> Compared<()> {
        let serial = sample::next_serial(&self.random, &used_serials(&state_of(state)));
        self.compare.change(state, &serial, journal)?;
        Ok(())
    }

    // ---- lists beside the single calls

    /// Lists among the other calls of one register, with refused receipts in them. The journal is taken over and written again.
    pub(super) fn lists_among_calls(&mut self) -> Compared<()> {
        let settings = sample::settings(&self.random);
        let room = settings.head_length() + self.random.pick(&[1000, 2000, 4000]);
        let mut journal = self.garbage(room);
        let mut state = self.garbage(STATE);
        self.compare.open(&settings_bytes(&settings), &mut journal, &mut state)?;
        let mut receipts = Vec::new();
        for _ in 0..4 {
            match self.random.below(3) {
                0 => self.change_to_another(&mut state, &mut journal)?,
                1 => receipts.extend(self.next_of_a_list(&mut state, &mut journal)?),
                _ => self.prepared(&state, &self.next_receipt(&state_of(&state)))?,
            }
            receipts.extend(self.next_list(&mut state, &mut journal)?);
        }
        self.accepted(settings, &state, journal, receipts)?;
        Ok(())
    }

    /// A list from a state made by hand.
    pub(super) fn list_by_hand(&mut self) -> Compared<()> {
        let state = sample::sound_state(&self.random, 300);
        let room = state.journal_length as usize + self.random.below(5 * LONGEST_COMPACT);
        let mut journal = self.garbage(room);
        self.next_list(&mut state_bytes(&state), &mut journal)?;
        Ok(())
    }

    /// A list, and its single calls on copies, up to the first that is refused. Returns the receipts that were issued.
    fn next_list(&mut self, state: &mut [u8], journal: &mut [u8]) -> Compared<Vec<Given>> {
        let (mut held, mut written) = (state.to_vec(), journal.to_vec());
        let mut expected = Listed { number: 0, issued: 0 };
        let mut list = Vec::new();
        for _ in 0..self.random.below(MOST + 1) {
            // what comes after a refused one would be issued if the list went on
            let now = state_of(&held);
            let mut details = self.next_receipt(&now);
            if self.random.once_in(8) {
                sample::spoil_details(&self.random, &mut details, &now);
            }
            list.push(details);
            if expected.number == 0 {
                expected.number = self.compare.issue(&mut held, &details, &[], &mut written)?;
                expected.issued += usize::from(expected.number == 0);
            }
        }
        let bytes = list_bytes(&list);
        let listed = self.compare.issue_list(state, &bytes, journal)?;
        demand(listed == expected, "a list is its single calls up to the first that is refused", &bytes)?;
        demand(state == held && journal == written, "a list leaves what its single calls leave", &bytes)?;
        Ok(with_failed_device(&list[..listed.issued]))
    }

    /// A receipt that the state mostly accepts.
    fn next_receipt(&self, state: &State) -> Details {
        let details = sample::details(&self.random, state);
        let number = state.last_number.saturating_add(1 + self.random.below(20) as u32);
        Details { number: if self.random.once_in(40) { u32::MAX } else { number }, ..details }
    }
}

/// What a receipt adds to the counter.
fn added(details: &Details) -> i64 {
    if details.kind == 2 { 0 } else { details.amounts.iter().sum() }
}

/// What Issue is given for these receipts where the device has failed.
fn with_failed_device(list: &[Details]) -> Vec<Given> {
    list.iter().map(|details| (*details, Vec::new())).collect()
}
