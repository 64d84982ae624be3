//! What a round does with journals that are checked in parts (request E10): the first call, and checks of some steps.

use super::pairs::{changed_state, pair_bytes, used_serials};
use super::{Accepted, Round};
use crate::base64;
use crate::calls::TakenOver;
use crate::compare::{Compared, demand};
use crate::layout::{STATE, settings_bytes, state_bytes, state_of};
use crate::model::{CHAIN, COUNTER, FIRST_AMOUNT, Journal, NUMBER, padded_text};
use crate::receipt::Kind;
use crate::register::{SERIALS, State};
use crate::sample;
use crate::settings::{Name, Settings};

/// Numbers of steps that no journal here has, also in few bits.
const MANY: [usize; 8] = [1 << 16, 1 << 32, (1 << 32) + 1, 1 << 40, 1 << 63, (1 << 63) + 1, usize::MAX - 1, usize::MAX];

const BAD_STATE: TakenOver = TakenOver { number: 6, index: 0 };

/// A valid journal, and the states that Open and then each Issue or Change left: after no step, and after each.
struct Stepped {
    settings: Settings,
    journal: Vec<u8>,
    after: Vec<Vec<u8>>,
}

impl Stepped {
    fn steps(&self) -> usize {
        self.after.len() - 1
    }

    /// The state after so many steps, or after all.
    fn after(&self, steps: usize) -> &[u8] {
        &self.after[steps.min(self.steps())]
    }

    fn held(&self, steps: usize) -> State {
        state_of(self.after(steps))
    }

    /// The length of the journal after so many steps.
    fn length(&self, steps: usize) -> usize {
        self.held(steps).journal_length as usize
    }

    /// The receipts after so many steps: the index of what comes next.
    fn receipts(&self, steps: usize) -> u32 {
        self.held(steps).receipts
    }

    /// Is the step after so many an entry, and not the start of a pair?
    fn entry_after(&self, steps: usize) -> bool {
        self.receipts(steps) < self.receipts(steps + 1)
    }

    /// The steps up to the end of the section that is open after so many.
    fn end_of_section(&self, steps: usize) -> usize {
        (steps..self.steps()).find(|&step| !self.entry_after(step)).unwrap_or(self.steps())
    }

    /// The steps before the next entry, if there is one.
    fn next_entry(&self, steps: usize) -> Option<usize> {
        (steps..self.steps()).find(|&step| self.entry_after(step))
    }

    /// The journal with another count of the section that is open after so many steps.
    fn with_count(&self, steps: usize, count: u32) -> Vec<u8> {
        let (mut journal, place) = (self.journal.clone(), self.held(steps).open_place as usize);
        journal[place..place + 4].copy_from_slice(&count.to_be_bytes());
        journal
    }

    /// This journal instead, which is refused after so many steps.
    fn refused(&self, journal: Vec<u8>, passed: usize, number: u32) -> Spoiled {
        Spoiled { journal, passed, answer: TakenOver { number, index: self.receipts(passed) } }
    }
}

/// A journal that is a valid one for some steps; then comes a refusal.
struct Spoiled {
    journal: Vec<u8>,
    passed: usize,
    answer: TakenOver,
}

impl Round<'_> {
    // ---- take over in parts

    /// Take over, and the same in parts.
    pub(super) fn taken(&mut self, journal: &[u8], key: &[u8], width: usize, state: &mut [u8]) -> Compared<TakenOver> {
        let list = self.step_list(journal.len());
        self.compare.take_over_in_parts(journal, key, width, &list, state)
    }

    /// Numbers of steps, zeros among them, mostly with a sum of at least this length.
    fn step_list(&self, length: usize) -> Vec<usize> {
        let mut list = Vec::new();
        for _ in 0..self.random.below(6) {
            list.push(self.random.pick(&[0, 1, 1, 2, 3, self.random.below(12)]));
        }
        if !self.random.once_in(8) {
            list.push(self.random.pick(&[length, length, length + 1, usize::MAX, self.random.pick(&MANY)]));
        }
        for _ in 0..self.random.below(3) {
            list.push(self.random.pick(&[0, 1, usize::MAX]));
        }
        list
    }

    // ---- journals whose states are known

    /// A journal of one to eight pairs with the state after each step, and journals and states made of it.
    pub(super) fn steps_by_design(&mut self) -> Compared<()> {
        let pairs = self.random.pick(&[1, 2, SERIALS, 1 + self.random.below(SERIALS)]);
        let receipts = self.some_receipts(pairs);
        let accepted = self.designed(&receipts).accepted();
        let stepped = self.stepped(&accepted)?;
        self.every_way(&stepped)?;
        for passed in 0..stepped.steps() {
            for _ in 0..2 {
                let spoiled = self.spoiled_after(&stepped, passed);
                self.refused_there(&stepped, &spoiled)?;
            }
        }
        self.steps_after_the_end(&stepped)?;
        self.counts_beside_the_state(&stepped)?;
        self.bytes_not_read(&stepped)?;
        self.states_not_sound(&stepped)?;
        self.states_that_say_otherwise(&stepped)?;
        self.states_by_chance(&stepped)?;
        self.states_of_another(&stepped)
    }

    /// Calls from a state made by hand: a check goes through what they wrote, one step for each.
    pub(super) fn calls_and_their_steps(&mut self) -> Compared<()> {
        let state = sample::sound_state(&self.random, 60);
        let place = state.open_place as usize;
        let mut journal = self.garbage(state.journal_length as usize + 1200);
        journal[place..place + 4].copy_from_slice(&state.open_receipts.to_be_bytes());
        let mut held = state_bytes(&state);
        let mut after = vec![held.to_vec()];
        for _ in 0..4 {
            let now = state_of(&held);
            let number = if self.random.once_in(3) {
                let serial = sample::next_serial(&self.random, &used_serials(&now));
                self.compare.change(&mut held, &serial, &mut journal)?
            } else {
                let (details, signature) = (sample::details(&self.random, &now), sample::signature(&self.random));
                self.compare.issue(&mut held, &details, &signature, &mut journal)?
            };
            if number == 0 {
                after.push(held.to_vec());
            }
        }
        journal.truncate(state_of(&held).journal_length as usize);
        self.every_way(&Stepped { settings: state.first(), journal, after })
    }

    /// An accepted journal with the states after its steps.
    fn stepped(&mut self, accepted: &Accepted) -> Compared<Stepped> {
        let after = self.written_again(accepted)?;
        Ok(Stepped { settings: accepted.settings, journal: accepted.journal.clone(), after })
    }

    /// A check whose answer is known, and the state after it.
    fn checked(
        &mut self,
        state: &[u8],
        journal: &[u8],
        steps: usize,
        answer: TakenOver,
        after: &[u8],
        what: &str,
    ) -> Compared<()> {
        let mut held = state.to_vec();
        let checked = self.compare.check_steps(&mut held, journal, steps)?;
        demand(checked == answer && held == after, what, &[state, journal].concat())
    }

    /// From the state after any step to that after any other, with more steps than there are, too. And step by step.
    fn every_way(&mut self, stepped: &Stepped) -> Compared<()> {
        let all = stepped.steps();
        for from in 0..=all {
            let left = all - from;
            for steps in [0, 1, left, left + 1, self.random.below(left + 1), self.random.pick(&MANY)] {
                let (held, after) = (stepped.after(from), stepped.after(from.saturating_add(steps)));
                self.checked(held, &stepped.journal, steps, TakenOver::DONE, after, "a check goes on by its steps")?;
            }
        }
        let mut held = stepped.after(0).to_vec();
        for passed in 1..=all + 2 {
            self.compare.check_steps(&mut held, &stepped.journal, 1)?;
            demand(held == stepped.after(passed), "a step is an entry or a change", &stepped.journal)?;
        }
        Ok(())
    }

    /// A journal that is refused at one step, from the states before it.
    fn refused_there(&mut self, stepped: &Stepped, spoiled: &Spoiled) -> Compared<()> {
        for from in [0, spoiled.passed, self.random.below(spoiled.passed + 1)] {
            self.refused_from(from, stepped, spoiled)?;
        }
        Ok(())
    }

    /// A journal that is refused at one step, from one state before it: checks up to that step pass, and any that come to it
    /// hand back their state.
    fn refused_from(&mut self, from: usize, stepped: &Stepped, spoiled: &Spoiled) -> Compared<()> {
        let Spoiled { journal, passed, answer } = spoiled;
        let (held, left) = (stepped.after(from), passed - from);
        for steps in [0, left, self.random.below(left + 1)] {
            let after = stepped.after(from + steps);
            self.checked(held, journal, steps, TakenOver::DONE, after, "the steps before a refusal pass")?;
        }
        for steps in [left + 1, left + 2 + self.random.below(4), self.random.pick(&MANY)] {
            self.checked(held, journal, steps, *answer, held, "a refused check hands back its state")?;
        }
        Ok(())
    }

    /// Something wrong with the step after so many.
    fn spoiled_after(&self, stepped: &Stepped, passed: usize) -> Spoiled {
        if stepped.entry_after(passed) {
            self.spoiled_entry(stepped, passed)
        } else {
            self.spoiled_pair(stepped, passed)
        }
    }

    /// Something wrong with the entry after so many steps: one of 15 to 20.
    fn spoiled_entry(&self, stepped: &Stepped, passed: usize) -> Spoiled {
        let (start, end) = (stepped.length(passed), stepped.length(passed + 1));
        let mut journal = stepped.journal.clone();
        let number = match self.random.below(8) {
            0 => {
                journal.truncate(start + self.random.pick(&[0, 1, 2, self.random.below(end - start)]));
                15
            }
            1 => {
                journal[start..start + 2].fill(0xff);
                15
            }
            2 => {
                journal[start..start + 2].fill(0);
                16
            }
            3 => {
                journal[start + 2 + self.random.below(end - start - 2)] = self.random.pick(b"!+/= \0\xff");
                16
            }
            _ => return self.respelled_entry(stepped, passed),
        };
        stepped.refused(journal, passed, number)
    }

    /// A well spelled entry that says something wrong: one of 17 to 20. What comes after it is right.
    fn respelled_entry(&self, stepped: &Stepped, passed: usize) -> Spoiled {
        let index = stepped.receipts(passed) as usize;
        let mut journal = Journal::of(&stepped.journal);
        let number = match self.random.below(3) {
            0 if index == 0 => {
                let entry = journal.entry(0);
                match self.random.below(3) {
                    0 => entry.fields[COUNTER] = b"VFJB".to_vec(),
                    1 => entry.fields[COUNTER] = b"U1RP".to_vec(),
                    _ => entry.fields[FIRST_AMOUNT + self.random.below(5)] = b"-0,01".to_vec(),
                }
                journal.all_right(0, &stepped.settings);
                18
            }
            0 => {
                journal.entry(index).fields[NUMBER] = journal.entry(index - 1).fields[NUMBER].clone();
                journal.all_right(index, &stepped.settings);
                17
            }
            1 => {
                journal.entry(index).fields[CHAIN] = padded_text(&self.garbage(8));
                journal.chain_right(index + 1);
                19
            }
            _ => {
                self.other_counter(&mut journal, index, &stepped.settings);
                20
            }
        };
        stepped.refused(journal.bytes(), passed, number)
    }

    /// One bit of the counter that this entry shows changed; it is made a standard receipt where it is none.
    fn other_counter(&self, journal: &mut Journal, index: usize, settings: &Settings) {
        if journal.entry(index).kind() != Kind::Standard {
            journal.entry(index).fields[COUNTER].clear();
            journal.all_right(index, settings);
        }
        let (field, mut counter) = (&mut journal.entry(index).fields[COUNTER], [0; 8]);
        let width = base64::read_padded(field, &mut counter).expect("a counter");
        counter[self.random.below(width)] ^= 1 << self.random.below(8);
        *field = padded_text(&counter[..width]);
        journal.chain_right(index + 1);
    }

    /// Something wrong with the start of a pair after so many steps: 21 or 30.
    fn spoiled_pair(&self, stepped: &Stepped, passed: usize) -> Spoiled {
        let (start, end) = (stepped.length(passed), stepped.length(passed + 1));
        let mut journal = stepped.journal.clone();
        let number = match self.random.below(4) {
            0 => {
                journal.truncate(start + 1 + self.random.below(end - start - 1));
                21
            }
            1 => {
                let length: u32 = self.random.pick(&[0, 33, 1 << 8, u32::MAX]);
                journal[start..start + 4].copy_from_slice(&length.to_be_bytes());
                21
            }
            2 => {
                journal[start + 4 + self.random.below(end - start - 8)] = sample::no_serial_byte(&self.random);
                21
            }
            _ => {
                let mut parts = Journal::of(&journal);
                let pair = stepped.held(passed).used();
                parts.pairs[pair].serial = parts.pairs[self.random.below(pair)].serial.clone();
                journal = parts.bytes();
                30
            }
        };
        stepped.refused(journal, passed, number)
    }

    /// Bytes after the end, which are asked only by a step that comes there: 21, 30 or 31; or one step more.
    fn steps_after_the_end(&mut self, stepped: &Stepped) -> Compared<()> {
        let all = stepped.steps();
        let held = stepped.held(all);
        let serials = used_serials(&held);
        let used = pair_bytes(&serials[self.random.below(serials.len())]);
        let cut = used[..1 + self.random.below(used.len() - 1)].to_vec();
        let zeros = vec![0; 1 + self.random.below(40)];
        for (bytes, number) in [(used, 30), (cut, 21), (zeros, 21)] {
            let journal = [&stepped.journal[..], &bytes].concat();
            self.refused_there(stepped, &stepped.refused(journal, all, number))?;
        }
        let new = sample::next_serial(&self.random, &serials);
        let journal = [&stepped.journal[..], &pair_bytes(&new)].concat();
        if held.used() == SERIALS {
            return self.refused_there(stepped, &stepped.refused(journal, all, 31));
        }
        let after = state_bytes(&changed_state(&held, &new));
        self.checked(stepped.after(all), &journal, 1, TakenOver::DONE, &after, "a change after the end is a step")
    }

    // ---- the journal and the state beside each other

    /// Another count of the open section: fewer receipts than the state has, as many, or more than there are.
    fn counts_beside_the_state(&mut self, stepped: &Stepped) -> Compared<()> {
        for from in 0..=stepped.steps() {
            let (held, end) = (stepped.after(from), stepped.end_of_section(from));
            let (has, there) = (stepped.held(from).open_receipts, stepped.held(end).open_receipts);
            if has > 0 {
                let fewer = stepped.with_count(from, self.random.pick(&[0, has - 1]));
                for steps in [0, 1, self.random.pick(&MANY)] {
                    self.checked(held, &fewer, steps, BAD_STATE, held, "no more receipts than the journal counts")?;
                }
            }
            if has < there {
                // an entry that is no longer counted starts no pair
                let as_many = stepped.with_count(from, has);
                self.refused_from(from, stepped, &stepped.refused(as_many, from, 21))?;
            }
            // the length of the next serial is read as an empty entry
            let number = if end == stepped.steps() { 15 } else { 16 };
            let more = stepped.with_count(from, self.random.pick(&[there + 1, there | 1 << 16, u32::MAX]));
            self.refused_from(from, stepped, &stepped.refused(more, end, number))?;
        }
        Ok(())
    }

    /// The bytes before the end of the state's journal are not read, but for the count of its open section.
    fn bytes_not_read(&mut self, stepped: &Stepped) -> Compared<()> {
        for from in 0..=stepped.steps() {
            let (length, place) = (stepped.length(from), stepped.held(from).open_place as usize);
            let mut journal = [&self.garbage(length)[..], &stepped.journal[length..]].concat();
            journal[place..place + 4].copy_from_slice(&stepped.journal[place..place + 4]);
            let steps = self.random.pick(&[0, 1, self.random.below(6), self.random.pick(&MANY)]);
            let after = stepped.after(from.saturating_add(steps));
            self.checked(
                stepped.after(from),
                &journal,
                steps,
                TakenOver::DONE,
                after,
                "bytes before the state are not read",
            )?;
        }
        Ok(())
    }

    /// States that are not sound for the journal, and states of another length: 6, whatever the steps are.
    fn states_not_sound(&mut self, stepped: &Stepped) -> Compared<()> {
        let whole = &stepped.journal[..];
        for from in 0..=stepped.steps() {
            let held = stepped.after(from);
            let mut state = stepped.held(from);
            sample::spoil_state(&self.random, &mut state, whole.len());
            let shorter = self.random.pick(&[0, stepped.length(from) - 1]);
            let given = [
                (state_bytes(&state).to_vec(), whole),
                (self.other_length(held), whole),
                (held.to_vec(), &whole[..shorter]),
            ];
            for (state, journal) in given {
                for steps in [0, 1 + self.random.below(3), self.random.pick(&MANY)] {
                    self.checked(&state, journal, steps, BAD_STATE, &state, "a state is sound for its journal")?;
                }
            }
        }
        Ok(())
    }

    /// Sound states that are not those of the journal: a check goes by its state.
    fn states_that_say_otherwise(&mut self, stepped: &Stepped) -> Compared<()> {
        for from in 0..=stepped.steps() {
            let held = stepped.held(from);
            let chain = State { chain: self.random.array(), ..held };
            let last_number = State { last_number: u32::MAX, ..held };
            if let Some(passed) = stepped.next_entry(from) {
                for (state, number) in [(chain, 19), (last_number, 17)] {
                    let state = state_bytes(&state);
                    let answer = TakenOver { number, index: stepped.receipts(passed) };
                    let steps = passed - from + 1 + self.random.below(3);
                    self.checked(&state, &stepped.journal, steps, answer, &state, "an entry follows the state")?;
                }
            }
            if held.receipts < held.last_number {
                self.one_receipt_more(stepped, from)?;
            }
        }
        Ok(())
    }

    /// A state that has issued one receipt more goes on from there, and so does the index.
    fn one_receipt_more(&mut self, stepped: &Stepped, from: usize) -> Compared<()> {
        let more = |steps| {
            let held = stepped.held(steps);
            state_bytes(&State { receipts: held.receipts + 1, ..held })
        };
        let (state, steps) = (more(from), self.random.below(6));
        self.checked(
            &state,
            &stepped.journal,
            steps,
            TakenOver::DONE,
            &more(from + steps),
            "receipts are those of the state",
        )?;
        let journal = [&stepped.journal[..], &[0]].concat();
        let answer = TakenOver { number: 21, index: 1 + stepped.receipts(stepped.steps()) };
        self.checked(&state, &journal, usize::MAX, answer, &state, "an index counts the receipts of the state")
    }

    /// States and journals that mostly do not belong together; what the answer is, the two sides say.
    fn states_by_chance(&mut self, stepped: &Stepped) -> Compared<()> {
        for _ in 0..24 {
            let mut state = stepped.held(self.random.below(stepped.steps() + 1));
            self.say_otherwise_in(&mut state, stepped);
            let mut journal = stepped.journal.clone();
            if self.random.once_in(3) {
                self.damage_bytes(&mut journal);
            }
            self.check_by_chance(&mut state_bytes(&state), &journal)?;
        }
        for _ in 0..6 {
            let mut state = state_bytes(&stepped.held(self.random.below(stepped.steps() + 1)));
            match self.random.below(3) {
                0 => state = self.random.array(),
                1 => state[self.random.below(STATE)] = self.random.byte(),
                _ => state[self.random.below(STATE)] ^= 1 << self.random.below(8),
            }
            self.check_by_chance(&mut state, &stepped.journal)?;
        }
        for _ in 0..6 {
            let state = sample::sound_state(&self.random, 200);
            let mut journal = self.garbage(state.journal_length as usize + self.random.pick(&[0, 0, 1, 9, 300]));
            let place = state.open_place as usize;
            let count = state.open_receipts.wrapping_add(self.random.pick(&[0, 0, 0, 1, u32::MAX]));
            journal[place..place + 4].copy_from_slice(&count.to_be_bytes());
            self.check_by_chance(&mut state_bytes(&state), &journal)?;
        }
        Ok(())
    }

    /// The states of one register with the journal of another.
    fn states_of_another(&mut self, stepped: &Stepped) -> Compared<()> {
        let receipts = self.some_receipts(2);
        let accepted = self.designed(&receipts).accepted();
        let another = self.stepped(&accepted)?;
        for (states, journal) in [(stepped, &another.journal), (&another, &stepped.journal)] {
            for state in &states.after {
                self.check_by_chance(&mut state.clone(), journal)?;
            }
        }
        Ok(())
    }

    fn check_by_chance(&mut self, state: &mut [u8], journal: &[u8]) -> Compared<()> {
        let steps = self.random.pick(&[0, 1, 2, self.random.below(8), usize::MAX]);
        self.compare.check_steps(state, journal, steps)?;
        Ok(())
    }

    /// One part of a state changed, which stays sound where that part allows it.
    fn say_otherwise_in(&self, state: &mut State, stepped: &Stepped) {
        let newest = state.used() - 1;
        let end = sample::width_end(state.width);
        match self.random.below(14) {
            0 => state.csp = sample::csp(&self.random),
            1 => self.other_letter(&mut state.id, *b"AB"),
            2 => self.other_letter(&mut state.serials[newest], *b"01"),
            3 => state.serials[self.random.below(SERIALS)] = Name::of(&sample::serial(&self.random)),
            4 => state.width = self.random.between(5, 8) as u64,
            5 => state.key[self.random.below(32)] ^= 1 << self.random.below(8),
            6 => state.counter = self.random.pick(&[state.counter + 1, state.counter - 1, 0, end, !end]),
            7 => {
                state.last_number = self.random.pick(&[0, state.receipts, u32::MAX, state.last_number.wrapping_add(1)])
            }
            8 => state.receipts = self.random.pick(&[0, 1, state.last_number, state.receipts.wrapping_add(1)]),
            9 => state.chain[self.random.below(8)] ^= 1 << self.random.below(8),
            10 => {
                let step = self.random.below(stepped.steps() + 1);
                let length = self.random.below(stepped.journal.len() + 1);
                state.journal_length = self.random.pick(&[stepped.length(step), length]) as u64;
            }
            11 => {
                let open = state.open_receipts;
                state.open_receipts =
                    self.random.pick(&[0, open.wrapping_sub(1), open.wrapping_add(1), state.receipts]);
            }
            12 => {
                let other = stepped.held(self.random.below(stepped.steps() + 1)).open_place;
                let any = self.random.below(state.journal_length as usize) as u64;
                state.open_place = self.random.pick(&[other, other, 0, 7, any]);
            }
            _ => *state = State { key: state.key, width: state.width, ..sample::sound_state(&self.random, 200) },
        }
    }

    // ---- the first call

    /// The head alone: the state of Open, whatever the head counts and whatever comes after it.
    pub(super) fn heads(&mut self) -> Compared<()> {
        let settings = sample::settings(&self.random);
        let (mut head, mut fresh) = (self.garbage(settings.head_length()), self.garbage(STATE));
        self.compare.open(&settings_bytes(&settings), &mut head, &mut fresh)?;
        let place = head.len() - 4;
        for count in [0, 1, self.random.next() as u32, u32::MAX] {
            head[place..].copy_from_slice(&count.to_be_bytes());
            let after = self.random.pick(&[0, 0, 1, 40]);
            let journal = [&head[..], &self.garbage(after)].concat();
            self.head_checked(&journal, &settings.key, settings.width as usize, 0, &fresh)?;
        }
        for length in 0..head.len() {
            self.head_checked(&head[..length], &settings.key, settings.width as usize, 14, &[0; STATE])?;
        }
        for width in (0..10).chain([sample::bad_width(&self.random) as usize]) {
            let opened = state_bytes(&State::opened(&Settings { width: width as u64, ..settings }));
            let (number, state) = if (5..=8).contains(&width) { (0, opened) } else { (4, [0; STATE]) };
            self.head_checked(&head, &settings.key, width, number, &state)?;
        }
        for wrong in 0..16 {
            self.head_refused_by(&head, &settings, wrong)?;
        }
        Ok(())
    }

    fn head_checked(&mut self, journal: &[u8], key: &[u8], width: usize, number: u32, after: &[u8]) -> Compared<()> {
        let mut state = self.garbage(STATE);
        let answer = self.compare.check_head(journal, key, width, &mut state)?;
        demand(answer == number && state == after, "the first call reads the head alone", journal)
    }

    /// "No" to some of the questions 6, 4 (the key), 4 (the width) and 14, one bit each: the first decides.
    fn head_refused_by(&mut self, head: &[u8], settings: &Settings, wrong: u32) -> Compared<()> {
        let is_wrong = |place: u32| wrong >> place & 1 == 1;
        let mut state = self.garbage(STATE);
        if is_wrong(0) {
            state = self.other_length(&state);
        }
        let key = if is_wrong(1) { vec![9; self.random.pick(&[0, 1, 31, 33, 64])] } else { settings.key.to_vec() };
        let width = if is_wrong(2) { sample::bad_width(&self.random) } else { settings.width };
        let length = if is_wrong(3) { self.random.below(head.len()) } else { head.len() };
        let expected = [6, 4, 4, 14, 0][wrong.trailing_zeros().min(4) as usize];
        let number = self.compare.check_head(&head[..length], &key, width as usize, &mut state)?;
        demand(number == expected, "the first question of the first call decides", head)
    }
}
