//! One call by the library and by the peer on the same bytes, and everything compared: the answer, and every buffer with
//! a canary before and after it.

use std::collections::BTreeSet;
use std::fmt::Debug;

use crate::calls::{Calls, Exported, Listed, Part, Peer, TakenOver, Written};
use crate::code::LONGEST_CODE;
use crate::device::Library;
use crate::layout::DETAILS;
use crate::line::LONGEST_ANY_LINE;
use crate::receipt::Details;
use crate::text::hex;

/// The calls in the order of the table, with the numbers that each can return.
pub const CALLS: [(&str, &[u32]); 27] = [
    ("version", &[0]),
    ("settings", &[0, 1, 2, 3, 4, 23]),
    ("figures", &[0]),
    ("serial", &[0, 23]),
    ("settings_in", &[0, 23]),
    ("open", &[0, 1, 2, 3, 4, 5, 6]),
    ("open_shared", &[0, 1, 2, 3, 4, 5, 6, 32]),
    ("prepare", &[0, 6, 7, 8, 9, 10, 11, 13]),
    ("issue", &[0, 6, 7, 8, 9, 10, 11, 12, 13]),
    ("issue_list", &[0, 6, 7, 8, 9, 10, 11, 13]),
    ("change", &[0, 3, 6, 13, 30, 31]),
    ("take_over", &[0, 4, 6, 14, 15, 16, 17, 18, 19, 20, 21, 30, 31]),
    ("check_head", &[0, 4, 6, 14]),
    ("check_steps", &[0, 6, 15, 16, 17, 18, 19, 20, 21, 30, 31]),
    ("read", &[0, 1, 2, 3, 4, 16, 23]),
    ("code", &[0, 22, 23]),
    ("uncode", &[0, 23, 24]),
    ("fields", &[0, 24]),
    ("export", &[0, 4, 14, 15, 16, 17, 18, 19, 20, 21, 23, 28, 30, 31]),
    ("read_export", &[0, 4, 6, 16, 17, 18, 19, 20, 23, 28, 29, 30, 31]),
    ("line", &[0, 23, 24, 26]),
    ("unline", &[0, 23, 27]),
    ("sha256", &[0, 23]),
    ("base64", &[0, 23]),
    ("unbase64", &[0, 22, 23]),
    ("base32", &[0, 23]),
    ("unbase32", &[0, 22, 23]),
];

/// The numbers of the calls are 0 to 32.
const NUMBERS: usize = 33;

const CANARY: usize = 48;

/// Bytes between two canaries. The one before them varies in length, so that they start at odd addresses, too.
#[derive(Clone, PartialEq, Eq)]
pub struct Guarded {
    bytes: Vec<u8>,
    start: usize,
}

impl Guarded {
    pub fn of(content: &[u8]) -> Self {
        let start = CANARY + content.len() % 8;
        let mut bytes = Vec::with_capacity(start + content.len() + CANARY);
        bytes.extend((0..start).map(|i| 0xc0 ^ i as u8));
        bytes.extend_from_slice(content);
        bytes.extend((0..CANARY).map(|i| 0x3f ^ i as u8));
        Guarded { bytes, start }
    }

    pub fn get(&self) -> &[u8] {
        &self.bytes[self.start..self.bytes.len() - CANARY]
    }

    pub fn get_mut(&mut self) -> &mut [u8] {
        let end = self.bytes.len() - CANARY;
        &mut self.bytes[self.start..end]
    }
}

/// What was found: the call, its inputs, and both answers, to be printed.
#[derive(Debug)]
pub struct Difference {
    pub text: String,
}

pub type Compared<T> = Result<T, Difference>;

/// What must hold of both sides together; the bytes are printed where it does not.
pub fn demand(holds: bool, what: &str, bytes: &[u8]) -> Compared<()> {
    if holds {
        return Ok(());
    }
    Err(Difference { text: format!("does not hold: {what}\nbytes {}\n", hex(bytes)) })
}

/// Takes over what a call left in an output, of which it wrote so many bytes and no more.
fn written_to(output: &mut [u8], after: &[u8], length: usize, given: &[u8]) -> Compared<()> {
    demand(length <= output.len(), "the length is within the output", given)?;
    demand(output[length..] == after[length..], "no byte after the end is written", given)?;
    output.copy_from_slice(after);
    Ok(())
}

/// Both sides, and how often each call returned each number.
pub struct Compare {
    pub comparisons: u64,
    /// Where it is there, a call that differs is noted in it, with the library's number, and the run goes on with the
    /// library's answer.
    pub differing: Option<BTreeSet<(&'static str, u32)>>,
    tally: [[u64; NUMBERS]; CALLS.len()],
}

impl Default for Compare {
    fn default() -> Self {
        Compare { comparisons: 0, differing: None, tally: [[0; NUMBERS]; CALLS.len()] }
    }
}

impl Compare {
    /// One that notes the calls that differ, and goes on.
    pub fn going_on() -> Self {
        Compare { differing: Some(BTreeSet::new()), ..Compare::default() }
    }

    /// Does one call on both sides. `free` are the buffers that a refusal may change.
    fn run<const BUFFERS: usize, Answer: Copy + PartialEq + Debug>(
        &mut self,
        call: &'static str,
        values: &dyn Debug,
        buffers: [(&str, &[u8]); BUFFERS],
        free: &[usize],
        work: impl Fn(&dyn Calls, &mut [Guarded; BUFFERS]) -> Answer,
        number: impl Fn(Answer) -> u32,
    ) -> Compared<(Answer, [Guarded; BUFFERS])> {
        let before = buffers.map(|(_, bytes)| Guarded::of(bytes));
        let (mut library, mut peer) = (before.clone(), before.clone());
        let library_answer = work(&Library, &mut library);
        let peer_answer = work(&Peer, &mut peer);
        self.comparisons += 1;

        let what = if library_answer != peer_answer {
            "other answers"
        } else if library != peer {
            "other bytes in a buffer or around it"
        } else if number(library_answer) != 0 && (0..BUFFERS).any(|i| !free.contains(&i) && library[i] != before[i]) {
            "refused, and a buffer is changed"
        } else {
            let number = number(library_answer);
            let row = CALLS.iter().position(|(name, _)| *name == call).expect("a call of the table");
            if CALLS[row].1.contains(&number) {
                self.tally[row][number as usize] += 1;
                return Ok((peer_answer, peer));
            }
            "a number that this call does not have"
        };
        if let Some(differing) = &mut self.differing {
            differing.insert((call, number(library_answer)));
            return Ok((library_answer, library));
        }

        let mut text = format!("{what}\ncall {call}\n");
        if !format!("{values:?}").is_empty() {
            text += &format!("values {values:?}\n");
        }
        for (name, bytes) in buffers {
            text += &format!("{name} ({} bytes) {}\n", bytes.len(), hex(bytes));
        }
        text += &format!("library answers {library_answer:?}\npeer answers    {peer_answer:?}\n");
        for i in 0..BUFFERS {
            let name = buffers[i].0;
            if library[i] != before[i] || peer[i] != before[i] {
                text += &format!("{name} after, library (with canaries) {}\n", hex(&library[i].bytes));
                text += &format!("{name} after, peer (with canaries)    {}\n", hex(&peer[i].bytes));
            }
        }
        Err(Difference { text })
    }

    pub fn version(&mut self) -> Compared<()> {
        self.run("version", &format_args!(""), [], &[], |side, []| side.version(), |_| 0)?;
        Ok(())
    }

    /// Settings; `output` is what lies there before.
    pub fn settings(
        &mut self,
        csp: &[u8],
        id: &[u8],
        serial: &[u8],
        width: usize,
        key: &[u8],
        output: &mut [u8],
    ) -> Compared<u32> {
        let (number, after) = self.run(
            "settings",
            &format_args!("width {width}"),
            [("csp", csp), ("id", id), ("serial", serial), ("key", key), ("settings", output)],
            &[],
            |side, [csp, id, serial, key, settings]| {
                side.settings(csp.get(), id.get(), serial.get(), width, key.get(), settings.get_mut())
            },
            |number| number,
        )?;
        output.copy_from_slice(after[4].get());
        Ok(number)
    }

    /// The five figures that a state says.
    pub fn figures(&mut self, state: &[u8]) -> Compared<()> {
        self.run(
            "figures",
            &format_args!(""),
            [("state", state)],
            &[],
            |side, [state]| {
                let state = state.get();
                let numbers = [side.last_number(state), side.receipts(state), side.serials(state)];
                (side.counter(state), numbers, side.journal_length(state))
            },
            |_| 0,
        )?;
        Ok(())
    }

    /// One of the serials of a state.
    pub fn serial(&mut self, state: &[u8], which: u32, output: &mut [u8]) -> Compared<Written> {
        self.text_call("serial", &format_args!("which {which}"), ("state", state), output, |side, state, output| {
            side.serial(state, which, output)
        })
    }

    /// The settings with one of the serials of a state; `settings` is what lies there before.
    pub fn settings_in(&mut self, state: &[u8], which: u32, settings: &mut [u8]) -> Compared<u32> {
        let (number, after) = self.run(
            "settings_in",
            &format_args!("which {which}"),
            [("state", state), ("settings", settings)],
            &[],
            |side, [state, settings]| side.settings_in(state.get(), which, settings.get_mut()),
            |number| number,
        )?;
        settings.copy_from_slice(after[1].get());
        Ok(number)
    }

    pub fn open(&mut self, settings: &[u8], journal: &mut [u8], state: &mut [u8]) -> Compared<u32> {
        self.open_call("open", settings, journal, state, |side, settings, journal, state| {
            side.open(settings, journal, state)
        })
    }

    pub fn open_shared(&mut self, settings: &[u8], journal: &mut [u8], state: &mut [u8]) -> Compared<u32> {
        self.open_call("open_shared", settings, journal, state, |side, settings, journal, state| {
            side.open_shared(settings, journal, state)
        })
    }

    /// Open, of either way.
    fn open_call(
        &mut self,
        call: &'static str,
        settings: &[u8],
        journal: &mut [u8],
        state: &mut [u8],
        work: impl Fn(&dyn Calls, &[u8], &mut [u8], &mut [u8]) -> u32,
    ) -> Compared<u32> {
        let (number, after) = self.run(
            call,
            &format_args!(""),
            [("settings", settings), ("journal", journal), ("state", state)],
            &[2],
            |side, [settings, journal, state]| work(side, settings.get(), journal.get_mut(), state.get_mut()),
            |number| number,
        )?;
        journal.copy_from_slice(after[1].get());
        state.copy_from_slice(after[2].get());
        Ok(number)
    }

    pub fn prepare(&mut self, state: &[u8], details: &Details, output: &mut [u8]) -> Compared<Written> {
        let (written, after) = self.run(
            "prepare",
            details,
            [("state", state), ("output", output)],
            &[],
            |side, [state, output]| side.prepare(state.get(), details, output.get_mut()),
            |written| written.number,
        )?;
        output.copy_from_slice(after[1].get());
        Ok(written)
    }

    pub fn issue(
        &mut self,
        state: &mut [u8],
        details: &Details,
        signature: &[u8],
        journal: &mut [u8],
    ) -> Compared<u32> {
        let (number, after) = self.run(
            "issue",
            details,
            [("state", state), ("signature", signature), ("journal", journal)],
            &[],
            |side, [state, signature, journal]| {
                side.issue(state.get_mut(), details, signature.get(), journal.get_mut())
            },
            |number| number,
        )?;
        state.copy_from_slice(after[0].get());
        journal.copy_from_slice(after[2].get());
        Ok(number)
    }

    /// A list of receipts. A refused one leaves what was issued before it, so a number does not say that nothing is changed:
    /// the count of the issued ones does.
    pub fn issue_list(&mut self, state: &mut [u8], list: &[u8], journal: &mut [u8]) -> Compared<Listed> {
        let (listed, after) = self.run(
            "issue_list",
            &format_args!(""),
            [("state", state), ("list", list), ("journal", journal)],
            &[0, 2],
            |side, [state, list, journal]| side.issue_list(state.get_mut(), list.get(), journal.get_mut()),
            |listed| listed.number,
        )?;
        let (held, written) = (after[0].get(), after[2].get());
        let unchanged = held == state && written == journal;
        demand(listed.issued > 0 || unchanged, "none issued, and a buffer is changed", list)?;
        let all = listed.issued * DETAILS == list.len();
        demand(all == (listed.number == 0), "all are issued, or there is a number", list)?;
        state.copy_from_slice(held);
        journal.copy_from_slice(written);
        Ok(listed)
    }

    pub fn change(&mut self, state: &mut [u8], serial: &[u8], journal: &mut [u8]) -> Compared<u32> {
        let (number, after) = self.run(
            "change",
            &format_args!(""),
            [("state", state), ("serial", serial), ("journal", journal)],
            &[],
            |side, [state, serial, journal]| side.change(state.get_mut(), serial.get(), journal.get_mut()),
            |number| number,
        )?;
        state.copy_from_slice(after[0].get());
        journal.copy_from_slice(after[2].get());
        Ok(number)
    }

    pub fn take_over(&mut self, journal: &[u8], key: &[u8], width: usize, state: &mut [u8]) -> Compared<TakenOver> {
        let (taken, after) = self.run(
            "take_over",
            &format_args!("width {width}"),
            [("journal", journal), ("key", key), ("state", state)],
            &[2],
            |side, [journal, key, state]| side.take_over(journal.get(), key.get(), width, state.get_mut()),
            |taken| taken.number,
        )?;
        state.copy_from_slice(after[2].get());
        Ok(taken)
    }

    pub fn check_head(&mut self, journal: &[u8], key: &[u8], width: usize, state: &mut [u8]) -> Compared<u32> {
        let (number, after) = self.run(
            "check_head",
            &format_args!("width {width}"),
            [("journal", journal), ("key", key), ("state", state)],
            &[2],
            |side, [journal, key, state]| side.check_head(journal.get(), key.get(), width, state.get_mut()),
            |number| number,
        )?;
        state.copy_from_slice(after[2].get());
        Ok(number)
    }

    pub fn check_steps(&mut self, state: &mut [u8], journal: &[u8], steps: usize) -> Compared<TakenOver> {
        let (taken, after) = self.run(
            "check_steps",
            &format_args!("steps {steps}"),
            [("state", state), ("journal", journal)],
            &[],
            |side, [state, journal]| side.check_steps(state.get_mut(), journal.get(), steps),
            |taken| taken.number,
        )?;
        state.copy_from_slice(after[0].get());
        Ok(taken)
    }

    /// Read; `details` and `signature` are what lies there before.
    pub fn read(
        &mut self,
        settings: &[u8],
        form: &[u8],
        details: &mut [u8],
        signature: &mut [u8],
    ) -> Compared<Written> {
        let (written, after) = self.run(
            "read",
            &format_args!(""),
            [("settings", settings), ("form", form), ("details", details), ("signature", signature)],
            &[],
            |side, [settings, form, details, signature]| {
                side.read(settings.get(), form.get(), details.get_mut(), signature.get_mut())
            },
            |written| written.number,
        )?;
        details.copy_from_slice(after[2].get());
        signature.copy_from_slice(after[3].get());
        Ok(written)
    }

    /// A call that reads one text and writes another to the start of an output.
    fn text_call(
        &mut self,
        call: &'static str,
        values: &dyn Debug,
        (name, text): (&str, &[u8]),
        output: &mut [u8],
        work: impl Fn(&dyn Calls, &[u8], &mut [u8]) -> Written,
    ) -> Compared<Written> {
        let (written, after) = self.run(
            call,
            values,
            [(name, text), ("output", output)],
            &[],
            |side, [text, output]| work(side, text.get(), output.get_mut()),
            |written| written.number,
        )?;
        written_to(output, after[1].get(), written.length, text)?;
        Ok(written)
    }

    pub fn code(&mut self, form: &[u8], output: &mut [u8]) -> Compared<Written> {
        self.text_call("code", &format_args!(""), ("form", form), output, |side, form, output| side.code(form, output))
    }

    pub fn uncode(&mut self, code: &[u8], output: &mut [u8]) -> Compared<Written> {
        self.text_call("uncode", &format_args!(""), ("code", code), output, |side, code, output| {
            side.uncode(code, output)
        })
    }

    pub fn fields(&mut self, code: &[u8]) -> Compared<Part> {
        let (part, _) = self.run(
            "fields",
            &format_args!(""),
            [("code", code)],
            &[],
            |side, [code]| side.fields(code.get()),
            |part| part.number,
        )?;
        Ok(part)
    }

    /// Export; `output` is what lies there before.
    pub fn export(
        &mut self,
        journal: &[u8],
        key: &[u8],
        width: usize,
        certificates: &[u8],
        output: &mut [u8],
    ) -> Compared<Exported> {
        let (exported, after) = self.run(
            "export",
            &format_args!("width {width}"),
            [("journal", journal), ("key", key), ("certificates", certificates), ("output", output)],
            &[],
            |side, [journal, key, certificates, output]| {
                side.export(journal.get(), key.get(), width, certificates.get(), output.get_mut())
            },
            |exported| exported.number,
        )?;
        written_to(output, after[3].get(), exported.length, journal)?;
        Ok(exported)
    }

    /// Read export; `output` and `state` are what lies there before.
    pub fn read_export(
        &mut self,
        text: &[u8],
        key: &[u8],
        width: usize,
        output: &mut [u8],
        state: &mut [u8],
    ) -> Compared<Exported> {
        let (exported, after) = self.run(
            "read_export",
            &format_args!("width {width}"),
            [("text", text), ("key", key), ("output", output), ("state", state)],
            &[3],
            |side, [text, key, output, state]| {
                side.read_export(text.get(), key.get(), width, output.get_mut(), state.get_mut())
            },
            |exported| exported.number,
        )?;
        written_to(output, after[2].get(), exported.length, text)?;
        let (held, given) = (after[3].get(), &*state);
        let left = match exported.number {
            0 => true,
            6 => held == given,
            _ => held.iter().all(|&byte| byte == 0),
        };
        demand(left, "a refused text leaves the unopened state, but with 6 the state as it was", text)?;
        state.copy_from_slice(held);
        Ok(exported)
    }

    pub fn line(&mut self, code: &[u8], output: &mut [u8]) -> Compared<Written> {
        self.text_call("line", &format_args!(""), ("code", code), output, |side, code, output| side.line(code, output))
    }

    pub fn unline(&mut self, line: &[u8], output: &mut [u8]) -> Compared<Written> {
        self.text_call("unline", &format_args!(""), ("line", line), output, |side, line, output| {
            side.unline(line, output)
        })
    }

    pub fn sha256(&mut self, data: &[u8], output: &mut [u8]) -> Compared<u32> {
        let (number, after) = self.run(
            "sha256",
            &format_args!(""),
            [("data", data), ("output", output)],
            &[],
            |side, [data, output]| side.sha256(data.get(), output.get_mut()),
            |number| number,
        )?;
        output.copy_from_slice(after[1].get());
        Ok(number)
    }

    pub fn base64(&mut self, url: u32, data: &[u8], output: &mut [u8]) -> Compared<Written> {
        self.text_call("base64", &format_args!("url {url}"), ("data", data), output, |side, data, output| {
            side.base64(url, data, output)
        })
    }

    pub fn unbase64(&mut self, url: u32, text: &[u8], output: &mut [u8]) -> Compared<Written> {
        self.text_call("unbase64", &format_args!("url {url}"), ("text", text), output, |side, text, output| {
            side.unbase64(url, text, output)
        })
    }

    pub fn base32(&mut self, data: &[u8], output: &mut [u8]) -> Compared<Written> {
        self.text_call("base32", &format_args!(""), ("data", data), output, |side, data, output| {
            side.base32(data, output)
        })
    }

    pub fn unbase32(&mut self, text: &[u8], output: &mut [u8]) -> Compared<Written> {
        self.text_call("unbase32", &format_args!(""), ("text", text), output, |side, text, output| {
            side.unbase32(text, output)
        })
    }

    /// Take over, and the same in parts: the first call, and checks of so many steps, each from the state before it, up to the
    /// first that is refused. They must answer as Take over does, where the steps are at least as many as the bytes.
    pub fn take_over_in_parts(
        &mut self,
        journal: &[u8],
        key: &[u8],
        width: usize,
        list: &[usize],
        state: &mut [u8],
    ) -> Compared<TakenOver> {
        let mut held = state.to_vec();
        let taken = self.take_over(journal, key, width, state)?;
        let number = self.check_head(journal, key, width, &mut held)?;
        if number != 0 || matches!(taken.number, 4 | 6 | 14) {
            let same = taken == TakenOver { number, index: 0 } && held == state;
            demand(same, "the first call refuses what Take over refuses", journal)?;
            return Ok(taken);
        }
        let checked = self.check_list(&mut held, journal, list)?;
        let enough = list.iter().fold(0, |sum: usize, &steps| sum.saturating_add(steps)) >= journal.len();
        if enough || checked.number != 0 {
            demand(checked == taken, "checks up to the first refusal answer as Take over does", journal)?;
        }
        let all = enough && taken.number == 0;
        demand(!all || held == state, "checks to the end give the state of Take over", journal)?;
        Ok(taken)
    }

    /// Checks of so many steps, each from the state before it, up to the first that is refused: the last answer.
    fn check_list(&mut self, state: &mut [u8], journal: &[u8], list: &[usize]) -> Compared<TakenOver> {
        let mut checked = TakenOver::DONE;
        for &steps in list {
            checked = self.check_steps(state, journal, steps)?;
            if checked.number != 0 {
                break;
            }
        }
        Ok(checked)
    }

    /// The line of a code, which must give the code back; None where the code is refused.
    pub fn line_and_back(&mut self, code: &[u8]) -> Compared<Option<Vec<u8>>> {
        let line = self.whole_line(code)?;
        if let Some(line) = &line {
            let back = self.whole_code(line)?;
            demand(back.as_deref() == Some(code), "a line gives its code back", code)?;
        }
        Ok(line)
    }

    /// The code of a line, which must give the line back; None where the line is refused.
    pub fn unline_and_back(&mut self, line: &[u8]) -> Compared<Option<Vec<u8>>> {
        let code = self.whole_code(line)?;
        if let Some(code) = &code {
            let back = self.whole_line(code)?;
            demand(back.as_deref() == Some(line), "a code gives its line back", line)?;
        }
        Ok(code)
    }

    fn whole_line(&mut self, code: &[u8]) -> Compared<Option<Vec<u8>>> {
        let mut line = vec![0x5a; LONGEST_ANY_LINE];
        let written = self.line(code, &mut line)?;
        demand(written.number != 23, "the longest line has room for every code", code)?;
        line.truncate(written.length);
        Ok((written.number == 0).then_some(line))
    }

    fn whole_code(&mut self, line: &[u8]) -> Compared<Option<Vec<u8>>> {
        let mut code = vec![0x5a; LONGEST_CODE];
        let written = self.unline(line, &mut code)?;
        demand(written.number != 23, "the longest code has room for every line", line)?;
        code.truncate(written.length);
        Ok((written.number == 0).then_some(code))
    }

    /// How often each call returned each number, one line for each call.
    pub fn table(&self) -> String {
        let mut text = String::new();
        for (row, (name, numbers)) in CALLS.iter().enumerate() {
            text += &format!("{name:<11}");
            for &number in *numbers {
                text += &format!(" {number}:{}", self.tally[row][number as usize]);
            }
            text += "\n";
        }
        text
    }

    /// The calls with a number that never occurred.
    pub fn missing(&self) -> Vec<(&'static str, u32)> {
        let mut missing = Vec::new();
        for (row, (name, numbers)) in CALLS.iter().enumerate() {
            missing.extend(numbers.iter().filter(|n| self.tally[row][**n as usize] == 0).map(|n| (*name, *n)));
        }
        missing
    }
}
