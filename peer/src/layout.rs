//! Settings, state and details as the bytes of the C interface: numbers big-endian. A name is 32 bytes and its length in
//! eight.
//!
//! ```text
//!     0    3  CSP
//!     3   40  register ID             43   40  serial
//!    83    8  width                   91   32  key
//! ```
//!
//! The state:
//!
//! ```text
//!     0    3  CSP
//!     3   40  register ID             43  320  eight serials
//!   363    8  width                  371   32  key
//!   403    8  counter in cents       411    4  last receipt number
//!   415    4  receipts issued        419    8  chain value
//!   427    8  length of the journal
//!   435    4  receipts in the open section
//!   439    8  place of its count
//! ```
//!
//! The details of a receipt, with four bytes for each part of the date and eight for each amount:
//!
//! ```text
//!     0    4  receipt number          4   24  year, month, day, hour, minute, second
//!    28    4  kind                   32   40  amounts in cents: standard, reduced 1, reduced 2, zero, special
//! ```

use crate::receipt::{Date, Details};
use crate::register::State;
use crate::settings::{Name, Settings};

/// The version of these layouts.
pub const VERSION: u32 = 2;

pub const SETTINGS: usize = 123;
pub const STATE: usize = 447;
pub const DETAILS: usize = 72;
pub const SIGNATURE: usize = 64;

fn part<const LENGTH: usize>(bytes: &[u8], place: usize) -> [u8; LENGTH] {
    *bytes[place..].first_chunk().expect("the part is there")
}

fn put(bytes: &mut [u8], place: usize, part: &[u8]) {
    bytes[place..place + part.len()].copy_from_slice(part);
}

/// The bytes of a name with its length.
const NAME: usize = 40;

fn name(bytes: &[u8], place: usize) -> Name {
    Name { bytes: part(bytes, place), length: u64::from_be_bytes(part(bytes, place + 32)) }
}

fn put_name(bytes: &mut [u8], place: usize, name: &Name) {
    put(bytes, place, &name.bytes);
    put(bytes, place + 32, &name.length.to_be_bytes());
}

/// The settings that any 123 bytes say; all zero where there are more or fewer.
pub fn settings_of(bytes: &[u8]) -> Settings {
    if bytes.len() != SETTINGS {
        return Settings::default();
    }
    Settings {
        csp: part(bytes, 0),
        id: name(bytes, 3),
        serial: name(bytes, 43),
        width: u64::from_be_bytes(part(bytes, 83)),
        key: part(bytes, 91),
    }
}

pub fn settings_bytes(settings: &Settings) -> [u8; SETTINGS] {
    let mut bytes = [0; SETTINGS];
    put(&mut bytes, 0, &settings.csp);
    put_name(&mut bytes, 3, &settings.id);
    put_name(&mut bytes, 43, &settings.serial);
    put(&mut bytes, 83, &settings.width.to_be_bytes());
    put(&mut bytes, 91, &settings.key);
    bytes
}

/// The state that any 447 bytes say; the unopened one where there are more or fewer.
pub fn state_of(bytes: &[u8]) -> State {
    if bytes.len() != STATE {
        return State::default();
    }
    State {
        csp: part(bytes, 0),
        id: name(bytes, 3),
        serials: std::array::from_fn(|i| name(bytes, 43 + NAME * i)),
        width: u64::from_be_bytes(part(bytes, 363)),
        key: part(bytes, 371),
        counter: i64::from_be_bytes(part(bytes, 403)),
        last_number: u32::from_be_bytes(part(bytes, 411)),
        receipts: u32::from_be_bytes(part(bytes, 415)),
        chain: part(bytes, 419),
        journal_length: u64::from_be_bytes(part(bytes, 427)),
        open_receipts: u32::from_be_bytes(part(bytes, 435)),
        open_place: u64::from_be_bytes(part(bytes, 439)),
    }
}

pub fn state_bytes(state: &State) -> [u8; STATE] {
    let mut bytes = [0; STATE];
    put(&mut bytes, 0, &state.csp);
    put_name(&mut bytes, 3, &state.id);
    for (i, serial) in state.serials.iter().enumerate() {
        put_name(&mut bytes, 43 + NAME * i, serial);
    }
    put(&mut bytes, 363, &state.width.to_be_bytes());
    put(&mut bytes, 371, &state.key);
    put(&mut bytes, 403, &state.counter.to_be_bytes());
    put(&mut bytes, 411, &state.last_number.to_be_bytes());
    put(&mut bytes, 415, &state.receipts.to_be_bytes());
    put(&mut bytes, 419, &state.chain);
    put(&mut bytes, 427, &state.journal_length.to_be_bytes());
    put(&mut bytes, 435, &state.open_receipts.to_be_bytes());
    put(&mut bytes, 439, &state.open_place.to_be_bytes());
    bytes
}

/// The details that any 72 bytes say.
pub fn details_of(bytes: &[u8; DETAILS]) -> Details {
    let number = |place: usize| u32::from_be_bytes(part(bytes, place));
    Details {
        number: number(0),
        date: Date {
            year: number(4),
            month: number(8),
            day: number(12),
            hour: number(16),
            minute: number(20),
            second: number(24),
        },
        kind: number(28),
        amounts: std::array::from_fn(|i| i64::from_be_bytes(part(bytes, 32 + 8 * i))),
    }
}

/// The details of a list, 72 bytes each. Bytes that are no whole number of details say one receipt without a number.
pub fn list_of(bytes: &[u8]) -> Vec<Details> {
    let (list, rest) = bytes.as_chunks::<DETAILS>();
    if !rest.is_empty() {
        return vec![Details::default()];
    }
    list.iter().map(details_of).collect()
}

pub fn details_bytes(details: &Details) -> [u8; DETAILS] {
    let mut bytes = [0; DETAILS];
    let date = &details.date;
    let date = [date.year, date.month, date.day, date.hour, date.minute, date.second];
    put(&mut bytes, 0, &details.number.to_be_bytes());
    put(&mut bytes, 4, date.map(u32::to_be_bytes).as_flattened());
    put(&mut bytes, 28, &details.kind.to_be_bytes());
    put(&mut bytes, 32, details.amounts.map(i64::to_be_bytes).as_flattened());
    bytes
}

pub fn list_bytes(list: &[Details]) -> Vec<u8> {
    list.iter().flat_map(details_bytes).collect()
}
