//! The calls of the C interface as one trait, and the peer's answers to them.

use crate::layout::{
    DETAILS, SETTINGS, SIGNATURE, STATE, VERSION, details_bytes, list_of, settings_bytes, settings_of, state_bytes,
    state_of,
};
use crate::receipt::{Details, Receipt};
use crate::register::{Refused, State};
use crate::settings::{Name, Settings, csp_good, id_good, serial_good, width_good};
use crate::{base32, base64, code, crypto, export, line, register};

/// A number and a length.
#[derive(Clone, Copy, Debug, PartialEq, Eq)]
pub struct Written {
    pub number: u32,
    pub length: usize,
}

/// A number, and how many receipts of a list were issued.
#[derive(Clone, Copy, Debug, PartialEq, Eq)]
pub struct Listed {
    pub number: u32,
    pub issued: usize,
}

/// A number and an index.
#[derive(Clone, Copy, Debug, PartialEq, Eq)]
pub struct TakenOver {
    pub number: u32,
    pub index: u32,
}

impl TakenOver {
    pub const DONE: TakenOver = TakenOver { number: 0, index: 0 };
}

impl From<Refused> for TakenOver {
    fn from(refused: Refused) -> Self {
        TakenOver { number: refused.number, index: refused.index }
    }
}

/// A number, an index and a length.
#[derive(Clone, Copy, Debug, PartialEq, Eq)]
pub struct Exported {
    pub number: u32,
    pub index: u32,
    pub length: usize,
}

impl Exported {
    /// The answer of a refused call.
    pub fn refused(number: u32, index: u32) -> Exported {
        Exported { number, index, length: 0 }
    }
}

/// A number, and a place with its length.
#[derive(Clone, Copy, Debug, PartialEq, Eq)]
pub struct Part {
    pub number: u32,
    pub start: usize,
    pub length: usize,
}

/// include/ditgrux.h, call by call: slices for pointers and lengths, results for pointers to a number.
pub trait Calls {
    fn version(&self) -> u32;
    fn settings(&self, csp: &[u8], id: &[u8], serial: &[u8], width: usize, key: &[u8], settings: &mut [u8]) -> u32;
    fn counter(&self, state: &[u8]) -> i64;
    fn last_number(&self, state: &[u8]) -> u32;
    fn receipts(&self, state: &[u8]) -> u32;
    fn journal_length(&self, state: &[u8]) -> usize;
    fn serials(&self, state: &[u8]) -> u32;
    fn serial(&self, state: &[u8], which: u32, output: &mut [u8]) -> Written;
    fn settings_in(&self, state: &[u8], which: u32, settings: &mut [u8]) -> u32;
    fn open(&self, settings: &[u8], journal: &mut [u8], state: &mut [u8]) -> u32;
    fn open_shared(&self, settings: &[u8], journal: &mut [u8], state: &mut [u8]) -> u32;
    fn prepare(&self, state: &[u8], details: &Details, output: &mut [u8]) -> Written;
    fn issue(&self, state: &mut [u8], details: &Details, signature: &[u8], journal: &mut [u8]) -> u32;
    fn issue_list(&self, state: &mut [u8], list: &[u8], journal: &mut [u8]) -> Listed;
    fn change(&self, state: &mut [u8], serial: &[u8], journal: &mut [u8]) -> u32;
    fn take_over(&self, journal: &[u8], key: &[u8], width: usize, state: &mut [u8]) -> TakenOver;
    fn check_head(&self, journal: &[u8], key: &[u8], width: usize, state: &mut [u8]) -> u32;
    fn check_steps(&self, state: &mut [u8], journal: &[u8], steps: usize) -> TakenOver;
    fn read(&self, settings: &[u8], form: &[u8], details: &mut [u8], signature: &mut [u8]) -> Written;
    fn code(&self, form: &[u8], output: &mut [u8]) -> Written;
    fn uncode(&self, code: &[u8], output: &mut [u8]) -> Written;
    fn fields(&self, code: &[u8]) -> Part;
    fn export(&self, journal: &[u8], key: &[u8], width: usize, certificates: &[u8], output: &mut [u8]) -> Exported;
    fn read_export(&self, text: &[u8], key: &[u8], width: usize, output: &mut [u8], state: &mut [u8]) -> Exported;
    fn line(&self, code: &[u8], output: &mut [u8]) -> Written;
    fn unline(&self, line: &[u8], output: &mut [u8]) -> Written;
    fn sha256(&self, data: &[u8], output: &mut [u8]) -> u32;
    fn base64(&self, url: u32, data: &[u8], output: &mut [u8]) -> Written;
    fn unbase64(&self, url: u32, text: &[u8], output: &mut [u8]) -> Written;
    fn base32(&self, data: &[u8], output: &mut [u8]) -> Written;
    fn unbase32(&self, text: &[u8], output: &mut [u8]) -> Written;
}

/// This implementation.
pub struct Peer;

fn written(answer: Result<usize, u32>) -> Written {
    match answer {
        Ok(length) => Written { number: 0, length },
        Err(number) => Written { number, length: 0 },
    }
}

fn exported(answer: Result<usize, Refused>) -> Exported {
    match answer {
        Ok(length) => Exported { number: 0, index: 0, length },
        Err(refused) => Exported::refused(refused.number, refused.index),
    }
}

/// Both ways to open a register.
fn open(settings: &[u8], shared: bool, journal: &mut [u8], state: &mut [u8]) -> u32 {
    if state.len() != STATE {
        return 6;
    }
    let (number, opened) = match register::open(&settings_of(settings), shared, journal) {
        Ok(opened) => (0, opened),
        Err(number) => (number, State::default()),
    };
    state.copy_from_slice(&state_bytes(&opened));
    number
}

/// A call that takes a state and writes it again, which stays as it is where the call is refused.
fn with_state(state: &mut [u8], call: impl FnOnce(&mut State) -> Result<(), u32>) -> u32 {
    let mut held = state_of(state);
    match call(&mut held) {
        Ok(()) => {
            state.copy_from_slice(&state_bytes(&held));
            0
        }
        Err(number) => number,
    }
}

/// A call that reads a journal under a key and writes the state, which is the unopened one where the call is refused.
fn under_key(key: &[u8], state: &mut [u8], call: impl FnOnce(&[u8; 32]) -> Result<State, Refused>) -> TakenOver {
    if state.len() != STATE {
        return TakenOver { number: 6, index: 0 };
    }
    // a key of another length is asked with the width
    let answer = key.try_into().map_err(|_| Refused { number: 4, index: 0 }).and_then(call);
    let (taken, held) = match answer {
        Ok(held) => (TakenOver::DONE, held),
        Err(refused) => (refused.into(), State::default()),
    };
    state.copy_from_slice(&state_bytes(&held));
    taken
}

/// The bytes to the start of the output: their length, or 23.
fn put(bytes: &[u8], output: &mut [u8]) -> Result<usize, u32> {
    output.get_mut(..bytes.len()).ok_or(23u32)?.copy_from_slice(bytes);
    Ok(bytes.len())
}

/// A receipt to outputs of exactly 72 and 64 bytes: the length of its signature, or 23.
fn put_receipt(receipt: &Receipt, details: &mut [u8], signature: &mut [u8]) -> Result<usize, u32> {
    if details.len() != DETAILS || signature.len() != SIGNATURE {
        return Err(23);
    }
    details.copy_from_slice(&details_bytes(&receipt.details()));
    let Some(given) = receipt.signature else { return Ok(0) };
    signature.copy_from_slice(&given);
    Ok(given.len())
}

impl Calls for Peer {
    fn version(&self) -> u32 {
        VERSION
    }

    fn settings(&self, csp: &[u8], id: &[u8], serial: &[u8], width: usize, key: &[u8], settings: &mut [u8]) -> u32 {
        if !csp_good(csp) {
            return 1;
        }
        if !id_good(id) {
            return 2;
        }
        if !serial_good(serial) {
            return 3;
        }
        if !width_good(width as u64) || key.len() != 32 {
            return 4;
        }
        if settings.len() != SETTINGS {
            return 23;
        }
        let mut given =
            Settings { id: Name::of(id), serial: Name::of(serial), width: width as u64, ..Default::default() };
        given.csp.copy_from_slice(csp);
        given.key.copy_from_slice(key);
        settings.copy_from_slice(&settings_bytes(&given));
        0
    }

    fn counter(&self, state: &[u8]) -> i64 {
        state_of(state).counter
    }

    fn last_number(&self, state: &[u8]) -> u32 {
        state_of(state).last_number
    }

    fn receipts(&self, state: &[u8]) -> u32 {
        state_of(state).receipts
    }

    fn journal_length(&self, state: &[u8]) -> usize {
        state_of(state).journal_length as usize
    }

    fn serials(&self, state: &[u8]) -> u32 {
        state_of(state).used() as u32
    }

    fn serial(&self, state: &[u8], which: u32, output: &mut [u8]) -> Written {
        let state = state_of(state);
        written(put(state.serial_in(which as usize).map_or(b"", Name::shown), output))
    }

    fn settings_in(&self, state: &[u8], which: u32, settings: &mut [u8]) -> u32 {
        if settings.len() != SETTINGS {
            return 23;
        }
        settings.copy_from_slice(&settings_bytes(&state_of(state).settings_in(which as usize)));
        0
    }

    fn open(&self, settings: &[u8], journal: &mut [u8], state: &mut [u8]) -> u32 {
        open(settings, false, journal, state)
    }

    fn open_shared(&self, settings: &[u8], journal: &mut [u8], state: &mut [u8]) -> u32 {
        open(settings, true, journal, state)
    }

    fn prepare(&self, state: &[u8], details: &Details, output: &mut [u8]) -> Written {
        written(register::prepare(&state_of(state), details, output))
    }

    fn issue(&self, state: &mut [u8], details: &Details, signature: &[u8], journal: &mut [u8]) -> u32 {
        with_state(state, |held| register::issue(held, details, signature, journal))
    }

    fn issue_list(&self, state: &mut [u8], list: &[u8], journal: &mut [u8]) -> Listed {
        let mut held = state_of(state);
        let (issued, answer) = register::issue_list(&mut held, &list_of(list), journal);
        if issued > 0 {
            state.copy_from_slice(&state_bytes(&held));
        }
        Listed { number: answer.err().unwrap_or(0), issued }
    }

    fn change(&self, state: &mut [u8], serial: &[u8], journal: &mut [u8]) -> u32 {
        with_state(state, |held| register::change(held, serial, journal))
    }

    fn take_over(&self, journal: &[u8], key: &[u8], width: usize, state: &mut [u8]) -> TakenOver {
        under_key(key, state, |key| register::take_over(journal, key, width as u64))
    }

    fn check_head(&self, journal: &[u8], key: &[u8], width: usize, state: &mut [u8]) -> u32 {
        let head = |key: &[u8; 32]| register::check_head(journal, key, width as u64);
        under_key(key, state, |key| head(key).map_err(|number| Refused { number, index: 0 })).number
    }

    fn check_steps(&self, state: &mut [u8], journal: &[u8], steps: usize) -> TakenOver {
        match register::check_steps(&state_of(state), journal, steps as u64) {
            Ok(held) => {
                state.copy_from_slice(&state_bytes(&held));
                TakenOver::DONE
            }
            Err(refused) => refused.into(),
        }
    }

    fn read(&self, settings: &[u8], form: &[u8], details: &mut [u8], signature: &mut [u8]) -> Written {
        let receipt = register::read(&settings_of(settings), form);
        written(receipt.and_then(|receipt| put_receipt(&receipt, details, signature)))
    }

    fn code(&self, form: &[u8], output: &mut [u8]) -> Written {
        written(code::code(form, output))
    }

    fn uncode(&self, code: &[u8], output: &mut [u8]) -> Written {
        written(code::uncode(code, output))
    }

    fn fields(&self, code: &[u8]) -> Part {
        match code::fields(code) {
            Some(id) => Part { number: 0, start: id.start, length: id.len() },
            None => Part { number: 24, start: 0, length: 0 },
        }
    }

    fn export(&self, journal: &[u8], key: &[u8], width: usize, certificates: &[u8], output: &mut [u8]) -> Exported {
        exported(export::export(journal, key, width as u64, certificates, output))
    }

    fn read_export(&self, text: &[u8], key: &[u8], width: usize, output: &mut [u8], state: &mut [u8]) -> Exported {
        if state.len() != STATE {
            return Exported::refused(6, 0);
        }
        let answer = export::read_export(text, key, width as u64, output);
        state.copy_from_slice(&state_bytes(&answer.map_or(State::default(), |(_, held)| held)));
        exported(answer.map(|(length, _)| length))
    }

    fn line(&self, code: &[u8], output: &mut [u8]) -> Written {
        written(line::line(code).and_then(|line| put(line.bytes(), output)))
    }

    fn unline(&self, line: &[u8], output: &mut [u8]) -> Written {
        written(line::unline(line).ok_or(27).and_then(|code| put(code.bytes(), output)))
    }

    fn sha256(&self, data: &[u8], output: &mut [u8]) -> u32 {
        written(put(&crypto::sha256(data), output)).number
    }

    fn base64(&self, url: u32, data: &[u8], output: &mut [u8]) -> Written {
        let text = if url == 0 {
            let mut text = vec![0; base64::padded_letters(data.len())];
            base64::write_padded(data, &mut text);
            text
        } else {
            let mut text = vec![0; base64::letters(data.len())];
            base64::write_url(data, &mut text);
            text
        };
        written(put(&text, output))
    }

    fn unbase64(&self, url: u32, text: &[u8], output: &mut [u8]) -> Written {
        let mut data = vec![0; text.len()];
        let length = if url == 0 { base64::read_padded(text, &mut data) } else { base64::read_url(text, &mut data) };
        written(match length {
            Some(length) => put(&data[..length], output),
            None => Err(22),
        })
    }

    fn base32(&self, data: &[u8], output: &mut [u8]) -> Written {
        written(put(&base32::padded_text(data), output))
    }

    fn unbase32(&self, text: &[u8], output: &mut [u8]) -> Written {
        let mut data = vec![0; text.len()];
        let length = base32::read_padded(text, &mut data);
        written(length.ok_or(22).and_then(|length| put(&data[..length], output)))
    }
}
