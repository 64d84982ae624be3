//! Times of both sides in one run, and work of one side alone to count its instructions.

use std::time::{Duration, Instant};

use crate::calls::{Calls, Listed, Peer, Written};
use crate::code::LONGEST_CODE;
use crate::device::Library;
#[cfg(feature = "jansson")]
use crate::jansson;
use crate::layout::{DETAILS, SETTINGS, SIGNATURE, STATE, details_bytes, list_bytes, state_bytes, state_of};
use crate::line::LONGEST_LINE;
use crate::model::group_bytes;
use crate::receipt::{Date, Details, LONGEST_COMPACT, LONGEST_INPUT};
use crate::register::State;

const CSP: &[u8] = b"AT1";
const ID: &[u8] = b"Filiale-Linz-K07";
const SERIAL: &[u8] = b"4c9a01d2e7b35f68";
const WIDTH: usize = 8;
const KEY: [u8; 32] = *b"the key of the turnover counter.";

/// The details of receipt `i` from 0: the start receipt, then sales, with a cancellation and a training receipt in
/// every twenty.
fn details(i: usize) -> Details {
    let n = i as i64;
    let date = Date {
        year: 2024 + (i / 40_000 % 70) as u32,
        month: 1 + (i / 3_000 % 12) as u32,
        day: 1 + (i / 100 % 28) as u32,
        hour: (8 + i % 100 / 10) as u32,
        minute: (i % 60) as u32,
        second: (i * 7 % 60) as u32,
    };
    let (amounts, kind) = match i {
        0 => ([0; 5], 0),
        _ => match i % 20 {
            7 => ([-(n % 5_000), 0, 0, 0, 0], 1),
            13 => ([n % 900, 0, n % 300, 0, 0], 2),
            _ => ([1_000 + n % 9_000, n % 700, 0, n % 150, 0], 0),
        },
    };
    Details { number: i as u32 + 1, date, amounts, kind }
}

/// One group: a certificate of 1,000 bytes and one of 1,200.
fn certificates() -> Vec<u8> {
    let certificate = |length: usize| (0..length).map(|k| (k * 7 + length) as u8).collect();
    group_bytes(&[certificate(1_000), certificate(1_200)])
}

fn signature(i: usize) -> [u8; 64] {
    std::array::from_fn(|k| (i * 37 + k * 11 + i / 256 + 5) as u8)
}

/// All that the calls are given, made before any clock starts.
struct Work {
    settings: [u8; SETTINGS],
    details: Vec<Details>,
    signatures: Vec<[u8; 64]>,
    /// The journal of these receipts and the state after it, both made by the peer.
    journal: Vec<u8>,
    state: [u8; STATE],
    /// The same receipts as a list, and journal and state where the device has failed.
    list: Vec<u8>,
    failed_journal: Vec<u8>,
    failed_state: [u8; STATE],
    /// Where in the journal each compact form stands.
    forms: Vec<std::ops::Range<usize>>,
    /// The code of each receipt and its line, both made by the peer.
    codes: Vec<Vec<u8>>,
    lines: Vec<Vec<u8>>,
    /// Certificates of the signature device and its issuer, and the export, made by the peer.
    certificates: Vec<u8>,
    text: Vec<u8>,
    /// The state after the start receipt.
    started: [u8; STATE],
    /// A buffer with room for all receipts, as a journal and as a text.
    buffer: Vec<u8>,
}

impl Work {
    fn of(receipts: usize) -> Work {
        let mut settings = [0; SETTINGS];
        assert_eq!(Peer.settings(CSP, ID, SERIAL, WIDTH, &KEY, &mut settings), 0);
        let mut work = Work {
            settings,
            details: (0..receipts).map(details).collect(),
            signatures: (0..receipts).map(signature).collect(),
            journal: Vec::new(),
            state: [0; STATE],
            list: Vec::new(),
            failed_journal: Vec::new(),
            failed_state: [0; STATE],
            forms: Vec::new(),
            codes: Vec::new(),
            lines: Vec::new(),
            certificates: certificates(),
            text: Vec::new(),
            started: [0; STATE],
            buffer: vec![0; 4_000 + receipts * (3 + LONGEST_COMPACT)],
        };
        let mut state = work.opened(&Peer);
        for i in 0..receipts {
            let before = Peer.journal_length(&state);
            assert_eq!(Peer.issue(&mut state, &work.details[i], &work.signatures[i], &mut work.buffer), 0);
            work.forms.push(before + 2..Peer.journal_length(&state));
            if i == 0 {
                work.started = state;
            }
        }
        work.journal = work.buffer[..Peer.journal_length(&state)].to_vec();
        work.state = state;
        let length = work.export(&Peer);
        work.text = work.buffer[..length].to_vec();
        let written = |written: Written, output: &[u8]| output[..written.length].to_vec();
        for i in 0..receipts {
            let (mut code, mut line) = ([0; LONGEST_CODE], [0; LONGEST_LINE]);
            work.codes.push(written(Peer.code(work.form(i), &mut code), &code));
            work.lines.push(written(Peer.line(&work.codes[i], &mut line), &line));
        }
        let mut failed = work.opened(&Peer);
        for details in &work.details {
            assert_eq!(Peer.issue(&mut failed, details, &[], &mut work.buffer), 0);
        }
        work.failed_journal = work.buffer[..Peer.journal_length(&failed)].to_vec();
        work.failed_state = failed;
        work.list = list_bytes(&work.details);
        work
    }

    /// Open into the buffer.
    fn opened(&mut self, side: &dyn Calls) -> [u8; STATE] {
        let mut state = [0; STATE];
        assert_eq!(side.open(&self.settings, &mut self.buffer, &mut state), 0);
        state
    }

    fn form(&self, i: usize) -> &[u8] {
        &self.journal[self.forms[i].clone()]
    }

    /// Open and one Issue for each receipt; the journal's bytes.
    fn issue(&mut self, side: &dyn Calls) -> usize {
        let mut state = self.opened(side);
        for (details, signature) in self.details.iter().zip(&self.signatures) {
            assert_eq!(side.issue(&mut state, details, signature, &mut self.buffer), 0);
        }
        assert_eq!(state, self.state);
        self.journal.len()
    }

    /// Open and one Issue for each receipt, all with a failed device; the journal's bytes.
    fn issue_failed(&mut self, side: &dyn Calls) -> usize {
        let mut state = self.opened(side);
        for details in &self.details {
            assert_eq!(side.issue(&mut state, details, &[], &mut self.buffer), 0);
        }
        assert_eq!(state, self.failed_state);
        self.failed_journal.len()
    }

    /// Open and one list of all receipts; the journal's bytes.
    fn issue_list(&mut self, side: &dyn Calls) -> usize {
        let mut state = self.opened(side);
        let listed = side.issue_list(&mut state, &self.list, &mut self.buffer);
        assert_eq!(listed, Listed { number: 0, issued: self.details.len() });
        assert_eq!(state, self.failed_state);
        self.failed_journal.len()
    }

    /// One Prepare for each receipt, all after the start receipt; the bytes written.
    fn prepare(&mut self, side: &dyn Calls) -> usize {
        let mut output = [0; LONGEST_INPUT];
        let mut bytes = 0;
        for details in &self.details {
            let state = if details.number == 1 { &self.before_the_start() } else { &self.started };
            let written = side.prepare(state, details, &mut output);
            assert_eq!(written.number, 0);
            bytes += written.length;
        }
        bytes
    }

    /// The state of an opened register: that after the start receipt without its number and counts.
    fn before_the_start(&self) -> [u8; STATE] {
        state_bytes(&State { last_number: 0, receipts: 0, open_receipts: 0, ..state_of(&self.started) })
    }

    /// One Take over of the whole journal; its bytes.
    fn take_over(&mut self, side: &dyn Calls) -> usize {
        let mut state = [0; STATE];
        assert_eq!(side.take_over(&self.journal, &KEY, WIDTH, &mut state).number, 0);
        assert_eq!(state, self.state);
        self.journal.len()
    }

    /// The same in parts: the first call, and checks of so many steps up to the end of the journal; its bytes.
    fn check_steps(&mut self, side: &dyn Calls, steps: usize) -> usize {
        let mut state = [0; STATE];
        assert_eq!(side.check_head(&self.journal, &KEY, WIDTH, &mut state), 0);
        let mut before = 0;
        while before != side.journal_length(&state) {
            before = side.journal_length(&state);
            assert_eq!(side.check_steps(&mut state, &self.journal, steps).number, 0);
        }
        assert_eq!(state, self.state);
        self.journal.len()
    }

    /// One Export of the whole journal; the bytes of the text.
    fn export(&mut self, side: &dyn Calls) -> usize {
        let exported = side.export(&self.journal, &KEY, WIDTH, &self.certificates, &mut self.buffer);
        assert_eq!((exported.number, exported.index), (0, 0));
        exported.length
    }

    /// One Read export of the whole text; its bytes.
    fn read_export(&mut self, side: &dyn Calls) -> usize {
        let mut state = [0; STATE];
        let read = side.read_export(&self.text, &KEY, WIDTH, &mut self.buffer, &mut state);
        assert_eq!((read.number, read.length), (0, self.journal.len()));
        assert_eq!(state, self.state);
        self.text.len()
    }

    /// The same two by the peer over a JSON library.
    #[cfg(feature = "jansson")]
    fn call_over_json(&mut self, call: &str) -> Option<usize> {
        let width = WIDTH as u64;
        match call {
            "export" => jansson::export(&self.journal, &KEY, width, &self.certificates, &mut self.buffer).ok(),
            "read-export" => {
                let read = jansson::read_export(&self.text, &KEY, width, &mut self.buffer);
                assert_eq!(read, Ok((self.journal.len(), state_of(&self.state))));
                Some(self.text.len())
            }
            _ => None,
        }
    }

    #[cfg(not(feature = "jansson"))]
    fn call_over_json(&mut self, _call: &str) -> Option<usize> {
        None
    }

    /// One Code for each receipt; the bytes written.
    fn code(&mut self, side: &dyn Calls) -> usize {
        let mut output = [0; LONGEST_CODE];
        let mut bytes = 0;
        for i in 0..self.forms.len() {
            let written = side.code(self.form(i), &mut output);
            assert_eq!(written.number, 0);
            bytes += written.length;
        }
        bytes
    }

    /// One Line for each receipt; the bytes written.
    fn line(&mut self, side: &dyn Calls) -> usize {
        let mut output = [0; LONGEST_LINE];
        let mut bytes = 0;
        for code in &self.codes {
            let written = side.line(code, &mut output);
            assert_eq!(written.number, 0);
            bytes += written.length;
        }
        bytes
    }

    /// One Unline for each receipt; the bytes written.
    fn unline(&mut self, side: &dyn Calls) -> usize {
        let mut output = [0; LONGEST_CODE];
        let mut bytes = 0;
        for line in &self.lines {
            let written = side.unline(line, &mut output);
            assert_eq!(written.number, 0);
            bytes += written.length;
        }
        bytes
    }

    /// One Read for each receipt, which gives what was issued; the bytes read.
    fn read(&mut self, side: &dyn Calls) -> usize {
        let (mut details, mut signature) = ([0; DETAILS], [0; SIGNATURE]);
        let mut bytes = 0;
        for i in 0..self.forms.len() {
            let read = side.read(&self.settings, self.form(i), &mut details, &mut signature);
            assert_eq!((read.number, read.length), (0, SIGNATURE));
            bytes += self.forms[i].len();
        }
        bytes
    }

    fn call(&mut self, call: &str, side: &dyn Calls) -> Option<usize> {
        match call {
            "issue" => Some(self.issue(side)),
            "issue-failed" => Some(self.issue_failed(side)),
            "issue-list" => Some(self.issue_list(side)),
            "prepare" => Some(self.prepare(side)),
            "take-over" => Some(self.take_over(side)),
            "check-1" => Some(self.check_steps(side, 1)),
            "check-10" => Some(self.check_steps(side, 10)),
            "check-100" => Some(self.check_steps(side, 100)),
            "check-1000" => Some(self.check_steps(side, 1000)),
            "export" => Some(self.export(side)),
            "read-export" => Some(self.read_export(side)),
            "code" => Some(self.code(side)),
            "read" => Some(self.read(side)),
            "line" => Some(self.line(side)),
            "unline" => Some(self.unline(side)),
            _ => None,
        }
    }
}

/// Both sides write the same bytes and give the same answers on this work.
fn same_answers(work: &mut Work) {
    for side in [&Library as &dyn Calls, &Peer] {
        work.buffer.fill(0);
        work.issue(side);
        assert!(work.buffer.starts_with(&work.journal));
        for call in ["issue-failed", "issue-list"] {
            work.buffer.fill(0);
            work.call(call, side);
            assert!(work.buffer.starts_with(&work.failed_journal));
        }
    }
    same_exports(work);
    for i in 0..work.forms.len() {
        let mut outputs = [[0; LONGEST_CODE]; 2];
        assert_eq!(Library.code(work.form(i), &mut outputs[0]), Peer.code(work.form(i), &mut outputs[1]));
        assert_eq!(outputs[0], outputs[1]);
        for side in [&Library as &dyn Calls, &Peer] {
            let (mut details, mut signature) = ([0; DETAILS], [0; SIGNATURE]);
            assert_eq!(side.read(&work.settings, work.form(i), &mut details, &mut signature).number, 0);
            assert_eq!((details, signature), (details_bytes(&work.details[i]), work.signatures[i]));
            let (code, line) = (&work.codes[i], &work.lines[i]);
            let (mut code_again, mut line_again) = (vec![0; code.len()], vec![0; line.len()]);
            assert_eq!(side.line(code, &mut line_again).number, 0);
            assert_eq!(side.unline(line, &mut code_again).number, 0);
            assert_eq!((&code_again, &line_again), (code, line));
        }
        let mut outputs = [[0; LONGEST_INPUT]; 2];
        let state = if i == 0 { work.before_the_start() } else { work.started };
        let details = &work.details[i];
        assert_eq!(Library.prepare(&state, details, &mut outputs[0]), Peer.prepare(&state, details, &mut outputs[1]));
        assert_eq!(outputs[0], outputs[1]);
    }
}

/// Both sides, and the peer over a JSON library where there is one, write the same text and read the same journal.
fn same_exports(work: &mut Work) {
    let ways: [fn(&mut Work, &str) -> Option<usize>; 3] = [
        |work, call| work.call(call, &Library),
        |work, call| work.call(call, &Peer),
        |work, call| if cfg!(feature = "jansson") { work.call_over_json(call) } else { work.call(call, &Peer) },
    ];
    for way in ways {
        for call in ["export", "read-export"] {
            work.buffer.fill(0);
            assert_eq!(way(work, call), Some(work.text.len()));
            assert!(work.buffer.starts_with(if call == "export" { &work.text } else { &work.journal }));
        }
    }
}

/// The time of one pass of each side, the ratio of both, and the bytes of a pass. A turn is as many passes as take 25
/// milliseconds, both sides one after the other; of twenty turns the best time and the median ratio count.
fn times(work: &mut Work, call: &str) -> ([Duration; 2], f64, usize) {
    let sides: [&dyn Calls; 2] = [&Library, &Peer];
    let mut best = [Duration::MAX; 2];
    let mut passes = [1; 2];
    let mut bytes = 0;
    for (i, side) in sides.iter().enumerate() {
        let start = Instant::now();
        bytes = work.call(call, *side).expect("a call");
        let once = start.elapsed().as_secs_f64();
        passes[i] = (0.025 / once).clamp(1.0, 1e6) as u32;
    }
    let mut ratios = Vec::new();
    for _ in 0..20 {
        let mut once = [Duration::ZERO; 2];
        for (i, side) in sides.iter().enumerate() {
            let start = Instant::now();
            for _ in 0..passes[i] {
                work.call(call, *side);
            }
            once[i] = start.elapsed() / passes[i];
            best[i] = best[i].min(once[i]);
        }
        ratios.push(once[0].as_secs_f64() / once[1].as_secs_f64());
    }
    ratios.sort_by(f64::total_cmp);
    (best, ratios[ratios.len() / 2], bytes)
}

/// Prints one line for each call and number of receipts.
pub fn run() {
    println!("| call | receipts | bytes | library: receipts/s | MB/s | peer: receipts/s | MB/s | time, library/peer |");
    println!("|---|---|---|---|---|---|---|---|");
    for receipts in [100, 1_000, 10_000, 100_000] {
        let mut work = Work::of(receipts);
        same_answers(&mut work);
        let calls: &[&str] = if receipts == 10_000 {
            &[
                "issue",
                "issue-failed",
                "issue-list",
                "prepare",
                "code",
                "line",
                "unline",
                "read",
                "check-1000",
                "export",
                "read-export",
                "take-over",
            ]
        } else {
            &["take-over"]
        };
        for call in calls {
            let ([library, peer], ratio, bytes) = times(&mut work, call);
            let rate = |time: Duration, amount: usize| amount as f64 / time.as_secs_f64();
            println!(
                "| {call} | {receipts} | {bytes} | {:.0} | {:.1} | {:.0} | {:.1} | {:.2} |",
                rate(library, receipts),
                rate(library, bytes) / 1e6,
                rate(peer, receipts),
                rate(peer, bytes) / 1e6,
                ratio
            );
        }
    }
}

/// Does `repeats` passes of one call on so many receipts by one side and prints the bytes of a pass. What is made before
/// is the same for both sides and for 0 repeats, whose cost is to be taken off.
pub fn work(call: &str, who: &str, receipts: usize, repeats: usize) -> bool {
    let way: fn(&mut Work, &str) -> Option<usize> = match who {
        "library" => |work, call| work.call(call, &Library),
        "peer" => |work, call| work.call(call, &Peer),
        "json" => |work, call| work.call_over_json(call),
        _ => return false,
    };
    let mut work = Work::of(receipts);
    let mut bytes = 0;
    for _ in 0..repeats {
        match way(&mut work, call) {
            Some(once) => bytes += once,
            None => return false,
        }
    }
    println!("{call} {receipts} receipts {repeats} times: {bytes} bytes");
    true
}
