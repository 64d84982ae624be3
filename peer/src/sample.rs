//! Random settings, states, details, signatures and codes: good ones, and ones with something wrong.

use crate::base64;
use crate::model::{CHAIN, COUNTER, Printed, SIGNED};
use crate::random::Random;
use crate::receipt::{AMOUNT_LIMIT, Date, Details, FAILURE, LONGEST_PAYLOAD};
use crate::register::{SERIALS, State};
use crate::settings::{Name, Number, Settings};

// ---- settings

pub fn csp(random: &Random) -> [u8; 3] {
    let letter = || random.pick(b"ABYZMNAT");
    let letters = [letter(), letter()];
    [letters[0], letters[1], random.pick(b"0123456789")]
}

fn name_length(random: &Random) -> usize {
    if random.once_in(3) { random.pick(&[1, 2, 31, 32]) } else { 1 + random.below(32) }
}

pub fn id(random: &Random) -> Vec<u8> {
    let length = name_length(random);
    let mut id = Vec::new();
    while id.len() < length {
        let byte = random.pick(&[33, 126, b'^', b'`', b'0', b'.', random.between(33, 126) as u8]);
        if byte != b'_' {
            id.push(byte);
        }
    }
    id
}

pub const DIGITS: &[u8; 10] = b"0123456789";

/// An ID of this length with this last byte. Before it stand any bytes, or digits alone.
pub fn id_ending_in(random: &Random, length: usize, last: u8) -> Vec<u8> {
    let digits = random.once_in(3);
    let mut id: Vec<u8> =
        (0..length).map(|_| if digits { random.pick(DIGITS) } else { random.pick(b"!~^`/:-.0A9Zafgz") }).collect();
    id[length - 1] = last;
    id
}

/// An ID that ends in a digit.
pub fn id_with_digit(random: &Random) -> Vec<u8> {
    id_ending_in(random, name_length(random), random.pick(DIGITS))
}

/// An ID that ends in no digit, often in a byte next to them.
pub fn id_without_digit(random: &Random) -> Vec<u8> {
    id_ending_in(random, name_length(random), random.pick(b"/:-.!~^`@AZafgz"))
}

pub fn serial(random: &Random) -> Vec<u8> {
    let length = name_length(random);
    (0..length).map(|_| random.pick(b"0123456789abcdef")).collect()
}

/// No good serial: a foreign letter, a wrong length, or like one of those used.
pub fn bad_serial(random: &Random, used: &[Vec<u8>]) -> Vec<u8> {
    let mut serial = serial(random);
    match random.below(4) {
        0 => return vec![b'a'; random.pick(&[0, 33, 34, 64, 256 + 5])],
        1 => return bad_serial_like(random, used),
        _ => {
            let place = random.below(serial.len());
            serial[place] = no_serial_byte(random);
        }
    }
    serial
}

/// No good serial, but one that could be taken for one of those used, or for an empty place after them.
pub fn bad_serial_like(random: &Random, used: &[Vec<u8>]) -> Vec<u8> {
    let Some(mut serial) = used.get(random.below(used.len().max(1))).cloned() else { return Vec::new() };
    match random.below(4) {
        0 => serial.clear(),
        1 => serial.push(0),
        2 => serial.resize(random.pick(&[33, 40, 64]), 0),
        _ => {
            let place = random.below(serial.len());
            serial[place] = match serial[place] {
                letter @ b'a'..=b'f' => letter.to_ascii_uppercase(),
                digit => digit | 0x80,
            };
        }
    }
    serial
}

pub fn key(random: &Random) -> [u8; 32] {
    match random.below(16) {
        0 => [0; 32],
        1 => [0xff; 32],
        _ => random.array(),
    }
}

pub fn settings(random: &Random) -> Settings {
    Settings {
        csp: csp(random),
        id: Name::of(&id(random)),
        serial: Name::of(&serial(random)),
        width: random.between(5, 8) as u64,
        key: key(random),
    }
}

pub fn bad_csp(random: &Random) -> [u8; 3] {
    let mut csp = csp(random);
    match random.below(4) {
        0 => csp[random.below(2)] = random.pick(b"@[`a{z0 \0\xc1"),
        1 => csp[2] = random.pick(b"/:A \0\xb0"),
        2 => csp = [0; 3],
        _ => csp.reverse(),
    }
    csp
}

/// A byte that no ID has.
pub fn no_id_byte(random: &Random) -> u8 {
    random.pick(&[b'_', 32, 127, 128, 0, 10, 0xff, 0xa1])
}

/// A byte that no serial has.
pub fn no_serial_byte(random: &Random) -> u8 {
    random.pick(b"/:@AFG`g _\0\x7f\xb0\xff")
}

/// Makes one name bad: a foreign byte, a wrong length, or a byte after the end.
fn spoil_name(random: &Random, name: &mut Name, foreign: u8) {
    let length = name.length as usize;
    match random.below(7) {
        0 | 1 => name.bytes[random.below(length)] = foreign,
        2 => name.length = 0,
        3 => *name = Name::default(),
        4 if length < 32 => {
            let place = random.pick(&[length, 31, length + random.below(32 - length)]);
            name.bytes[place] = random.pick(&[1, b'0', b'9', b'a', 0x80, 0xff]);
        }
        // the last byte lies after the end
        5 => name.length -= 1,
        _ => {
            let long = [33, 34, 64, 255, 256 + name.length, (1 << 32) + name.length, (1 << 63) + name.length, u64::MAX];
            name.length = random.pick(&long);
        }
    }
}

pub fn bad_width(random: &Random) -> u64 {
    random.pick(&[0, 1, 4, 9, 10, 256 + 5, (1 << 32) + 5, (1 << 63) + 8, u64::MAX])
}

/// Makes the settings bad by one of 1 to 4.
pub fn spoil_settings(random: &Random, settings: &mut Settings) {
    spoil_settings_by(random, settings, random.pick(&[1, 2, 3, 4]));
}

/// Makes the settings bad by this one of 1 to 4.
pub fn spoil_settings_by(random: &Random, settings: &mut Settings, number: Number) {
    match number {
        1 => settings.csp = bad_csp(random),
        2 => {
            let foreign = no_id_byte(random);
            spoil_name(random, &mut settings.id, foreign);
        }
        3 => {
            let foreign = no_serial_byte(random);
            spoil_name(random, &mut settings.serial, foreign);
        }
        4 => settings.width = bad_width(random),
        other => panic!("settings are not asked {other}"),
    }
}

// ---- states

/// The highest counter of a width from 5 to 8; the lowest is `!` of it.
pub fn width_end(width: u64) -> i64 {
    i64::MAX >> (64 - 8 * width)
}

/// The most that one receipt adds to the counter.
pub const FIVE_LARGEST: i64 = 5 * AMOUNT_LIMIT;

/// So many good serials, all different, the first of them given.
pub fn serials(random: &Random, first: &[u8], number: usize) -> Vec<Vec<u8>> {
    let mut serials = vec![first.to_vec()];
    while serials.len() < number {
        let next = next_serial(random, &serials);
        serials.push(next);
    }
    serials
}

/// A good serial that is none of these, but often like the last of them.
pub fn next_serial(random: &Random, used: &[Vec<u8>]) -> Vec<u8> {
    loop {
        let mut next = serial(random);
        if let Some(last) = used.last().filter(|_| random.once_in(2)) {
            next = serial_like(random, last);
        }
        if !used.contains(&next) {
            return next;
        }
    }
}

/// A good serial like this one: another letter, one more, or one less.
fn serial_like(random: &Random, serial: &[u8]) -> Vec<u8> {
    let mut other = serial.to_vec();
    match random.below(3) {
        0 => other.push(random.pick(b"0f")),
        1 => {
            other.pop();
        }
        _ => {
            let place = random.pick(&[0, other.len() - 1, random.below(other.len())]);
            other[place] = random.pick(b"0123456789abcdef");
        }
    }
    if (1..=32).contains(&other.len()) { other } else { serial.to_vec() }
}

/// The first of these serials, and zeros where there are fewer than eight.
pub fn slots(serials: &[Vec<u8>]) -> [Name; SERIALS] {
    std::array::from_fn(|i| serials.get(i).map_or(Name::default(), |serial| Name::of(serial)))
}

/// A sound state that mostly no list reaches; its journal length is at most `longest` bytes after the head, and the count
/// of the open section may stand anywhere.
pub fn sound_state(random: &Random, longest: usize) -> State {
    let settings = settings(random);
    let end = width_end(settings.width);
    let counter = match random.below(8) {
        0 => 0,
        1 => end,
        2 => !end,
        3 => end - random.between(0, FIVE_LARGEST + AMOUNT_LIMIT),
        4 => !end + random.between(0, FIVE_LARGEST + AMOUNT_LIMIT),
        5 => random.between(-1_000_000, 1_000_000),
        _ => random.between(!end, end),
    };
    let last_number = match random.below(8) {
        0 => 0,
        1 => 1,
        2 => u32::MAX,
        3 => u32::MAX - 1,
        4 => random.pick(&[9, 99, 999_999_999, 0x7fff_ffff, 0x8000_0000]),
        5 => random.between(0, 1000) as u32,
        _ => random.next() as u32,
    };
    let receipts = match random.below(4) {
        0 => 0,
        1 => last_number,
        2 => last_number.min(1),
        _ => random.between(0, last_number as i64) as u32,
    };
    let after = random.pick(&[0, 1, random.below(longest + 1)]);
    let head = settings.head_length();
    let last_place = head + after - 4;
    let number = random.pick(&[1, 1, 2, 3, SERIALS - 1, SERIALS, 1 + random.below(SERIALS)]);
    let mut serials = slots(&serials(random, settings.serial(), number));
    if number > 1 && random.once_in(8) {
        // equal ones: this is not asked
        serials[1 + random.below(number - 1)] = serials[random.below(number)];
    }
    let open_receipts = random.pick(&[0, receipts, receipts.min(1), random.between(0, receipts as i64) as u32]);
    let open_place = random.pick(&[head - 4, head - 4, 0, 3, last_place, random.below(last_place + 1)]);
    State {
        serials,
        counter,
        last_number,
        receipts,
        chain: random.array(),
        journal_length: (head + after) as u64,
        open_receipts,
        open_place: open_place as u64,
        ..State::opened(&settings)
    }
}

/// Makes a sound state unsound in one way (a counter of width 8 can't be made so). `room` is the buffer's length.
pub fn spoil_state(random: &Random, state: &mut State, room: usize) {
    let end = width_end(state.width);
    match random.below(13) {
        0 => state.csp = bad_csp(random),
        1 => spoil_name(random, &mut state.id, no_id_byte(random)),
        2 => state.width = bad_width(random),
        3 if state.width < 8 => {
            state.counter = random.pick(&[end + 1, !end - 1, i64::MAX, i64::MIN, end * 2 + 1, !end * 2])
        }
        4 | 5 if state.last_number < u32::MAX => {
            state.receipts = random.pick(&[state.last_number + 1, u32::MAX]);
        }
        6 => {
            let head = state.first().head_length() as u64;
            state.journal_length = random.pick(&[head - 1, head - 1, head - 4, 19, 1, 0]).min(head - 1);
            // the count may still be within
            state.open_place = state.open_place.min(state.journal_length.saturating_sub(4));
        }
        7..=9 => spoil_serials(random, state),
        10 if state.receipts < u32::MAX => {
            state.open_receipts = random.pick(&[state.receipts + 1, u32::MAX]);
        }
        11 => state.open_place = place_beyond(random, state.journal_length),
        _ => {
            let room = room as u64;
            state.journal_length =
                random.pick(&[room + 1, room + 4, (1 << 32) + state.journal_length, 1 << 63, u64::MAX - 1, u64::MAX]);
        }
    }
}

/// A place whose count does not end within the journal length, also where four bytes after it are beyond 64 bits.
pub fn place_beyond(random: &Random, journal_length: u64) -> u64 {
    let last = journal_length - 4;
    random.pick(&[
        last + 1,
        last + 4,
        last | 1 << 32,
        last | 1 << 63,
        u64::MAX - 4,
        u64::MAX - 3,
        u64::MAX - 1,
        u64::MAX,
    ])
}

/// Makes the serials of a sound state bad: one of them, none at all, a gap, or something after them.
pub fn spoil_serials(random: &Random, state: &mut State) {
    let used = state.used();
    match random.below(5) {
        // a slot of length 0 with a byte in it
        0 if used < SERIALS => {
            let after = random.pick(&[used, SERIALS - 1, random.between(used as i64, 7) as usize]);
            state.serials[after].bytes[random.pick(&[0, 31, random.below(32)])] = random.pick(b"0af\x01\x80");
        }
        // one more after a gap
        1 if used + 1 < SERIALS => {
            let after = random.pick(&[used + 1, SERIALS - 1, random.between(used as i64 + 1, 7) as usize]);
            state.serials[after] = Name::of(&serial(random));
        }
        2 if used > 1 => state.serials[random.below(used - 1)] = Name::default(),
        3 if used == 1 => state.serials[0] = Name::default(),
        _ => {
            let which = random.pick(&[0, used - 1, random.below(used)]);
            let before = state.serials[which];
            spoil_name(random, &mut state.serials[which], no_serial_byte(random));
            // one less is no fault
            if state.serials[which] == Name::default() {
                state.serials[which] = Name { length: 0, ..before };
            }
        }
    }
}

// ---- details

pub fn days(year: u32, month: u32) -> u32 {
    match month {
        2 if year % 4 == 0 => 29,
        2 => 28,
        4 | 6 | 9 | 11 => 30,
        _ => 31,
    }
}

/// A good date, often at an edge.
pub fn date(random: &Random) -> Date {
    let year = random.pick(&[2000, 2099, 2016, 2017, 2096, 2000 + random.below(100) as u32]);
    let month = random.pick(&[1, 2, 12, 1 + random.below(12) as u32]);
    let day = random.pick(&[1, days(year, month), 1 + random.below(28) as u32]);
    let hour = random.pick(&[0, 23, random.below(24) as u32]);
    let minute = random.pick(&[0, 59, random.below(60) as u32]);
    let second = random.pick(&[0, 59, random.below(60) as u32]);
    Date { year, month, day, hour, minute, second }
}

/// A date with one part wrong.
pub fn bad_date(random: &Random) -> Date {
    let mut date = date(random);
    // values that are too large, also in few bits
    let large = random.pick(&[100, 255, 256, 257, 65_536 + 1, 0x8000_0001, u32::MAX]);
    match random.below(6) {
        0 => date.year = random.pick(&[0, 16, 1999, 1996, 2100, 2104, 65_536 + 2016, u32::MAX]),
        1 => date.month = random.pick(&[0, 13, large]),
        2 => date.day = random.pick(&[0, days(date.year, date.month) + 1, 32, large]),
        3 => date.hour = random.pick(&[24, large]),
        4 => date.minute = random.pick(&[60, large]),
        _ => date.second = random.pick(&[60, large]),
    }
    date
}

/// The limit of an amount before request E4.
const FORMER_AMOUNT_LIMIT: i64 = 9_999_999_999;

/// Good amounts up to the former limit.
pub const FORMER_AMOUNTS: [i64; 3] = [0, FORMER_AMOUNT_LIMIT, -FORMER_AMOUNT_LIMIT];

/// Good amounts one cent beyond the former limit, and one cent below the limit.
pub const NEW_AMOUNTS: [i64; 4] =
    [FORMER_AMOUNT_LIMIT + 1, -FORMER_AMOUNT_LIMIT - 1, AMOUNT_LIMIT - 1, 1 - AMOUNT_LIMIT];

/// Amounts at the limit.
pub const LAST_AMOUNTS: [i64; 2] = [AMOUNT_LIMIT, -AMOUNT_LIMIT];

/// Amounts one cent beyond the limit.
pub const NEXT_AMOUNTS: [i64; 2] = [AMOUNT_LIMIT + 1, -AMOUNT_LIMIT - 1];

/// The ends of i64, which are no amounts.
pub const ENDS: [i64; 2] = [i64::MAX, i64::MIN];

/// An amount within the limits.
pub fn amount(random: &Random) -> i64 {
    match random.below(8) {
        0 | 1 => 0,
        2 => random.pick(&[&FORMER_AMOUNTS[..], &NEW_AMOUNTS, &LAST_AMOUNTS].concat()),
        3 => random.between(-AMOUNT_LIMIT, AMOUNT_LIMIT),
        4 => random.pick(&[
            1,
            -1,
            5,
            -5,
            9,
            10,
            99,
            100,
            -99,
            -100,
            999,
            1000,
            999_999_999,
            1_000_000_000,
            -1_000_000_000,
        ]),
        _ => random.between(-200_000, 200_000),
    }
}

pub fn bad_amount(random: &Random) -> i64 {
    random.pick(&[random.pick(&NEXT_AMOUNTS), random.pick(&ENDS), i64::MIN + 1, 1 << 37, 1 << 62, -(1 << 40)])
}

/// Five amounts within the limits with this sum, which such have.
pub fn amounts_with_sum(random: &Random, sum: i64) -> [i64; 5] {
    let left = sum % 5;
    let mut amounts = std::array::from_fn(|i| sum / 5 + if (i as i64) < left.abs() { left.signum() } else { 0 });
    for _ in 0..6 {
        let (from, to) = (random.below(5), random.below(5));
        if from == to {
            continue;
        }
        let most = (amounts[from] + AMOUNT_LIMIT).min(AMOUNT_LIMIT - amounts[to]);
        let moved = random.pick(&[0, most, random.between(0, most)]);
        amounts[from] -= moved;
        amounts[to] += moved;
    }
    amounts
}

/// Details that the state mostly accepts, with the counter at or just past its end now and then.
pub fn details(random: &Random, state: &State) -> Details {
    let last = state.last_number;
    let above = match random.below(8) {
        0 => u32::MAX,
        1 => last.saturating_add(1 + random.below(1_000_000) as u32),
        2 => last.saturating_add(random.pick(&[9, 10, 90, 100])),
        _ => last.saturating_add(1),
    };
    let mut details = Details { number: above, date: date(random), amounts: [0; 5], kind: 0 };
    if state.receipts == 0 {
        return details;
    }
    details.kind = random.pick(&[0, 0, 0, 1, 2]);
    details.amounts = std::array::from_fn(|_| amount(random));
    let width = state.width.clamp(5, 8);
    let most = FIVE_LARGEST as i128;
    if random.once_in(3) {
        let end = width_end(width) as i128;
        let goal = random.pick(&[end, end + 1, -end - 1, -end - 2, end - 1, -end]);
        let sum = goal - state.counter as i128;
        if (-most..=most).contains(&sum) {
            details.amounts = amounts_with_sum(random, sum as i64);
        }
    } else if random.once_in(4) {
        // towards the nearer end
        let sign = if state.counter < 0 { -1 } else { 1 };
        details.amounts = [sign * AMOUNT_LIMIT; 5];
    }
    details
}

/// No kind of receipt, but one in few bits at times.
pub fn bad_kind(random: &Random) -> u32 {
    random.pick(&[3, 4, 255, 256, 257, 65_536, 0x8000_0000, u32::MAX])
}

/// Makes the details wrong by one of 7 to 11; the state's counter decides whether 11 can be.
pub fn spoil_details(random: &Random, details: &mut Details, state: &State) {
    match random.below(7) {
        0 => details.number = random.pick(&[0, state.last_number, state.last_number / 2, 1.min(state.last_number)]),
        1 => details.kind = bad_kind(random),
        2 => details.date = bad_date(random),
        3 | 4 => details.amounts[random.below(5)] = bad_amount(random),
        5 => {
            details.kind = random.pick(&[0, 1, 2]);
            details.amounts = random.pick(&[[0; 5], [1, -1, 0, 0, 0], [0, 0, 0, 0, 1], [-1, 0, 0, 0, 0]]);
        }
        _ => details.amounts = [if state.counter < 0 { -AMOUNT_LIMIT } else { AMOUNT_LIMIT }; 5],
    }
}

// ---- signatures

/// 64 bytes, or none for a failed device.
pub fn signature(random: &Random) -> Vec<u8> {
    match random.below(6) {
        0 => Vec::new(),
        1 => vec![random.pick(&[0, 0xff, b'_', b'.']); 64],
        _ => random.bytes(64),
    }
}

pub fn bad_signature(random: &Random) -> Vec<u8> {
    match random.below(3) {
        0 => b"Sicherheitseinrichtung ausgefallen".to_vec(),
        _ => {
            let length = random.pick(&[1, 33, 34, 35, 63, 65, 86, 128, 256, 320]);
            random.bytes(length)
        }
    }
}

// ---- codes

/// The limit of a payload before request E4.
const FORMER_LONGEST_PAYLOAD: usize = 195;

/// Lengths of a payload around the limit, and around the former one. The last is too long.
pub const PAYLOAD_EDGES: [usize; 5] =
    [FORMER_LONGEST_PAYLOAD, FORMER_LONGEST_PAYLOAD + 1, LONGEST_PAYLOAD - 1, LONGEST_PAYLOAD, LONGEST_PAYLOAD + 1];

/// The bytes of a payload of twelve fields that are all empty, but for "R1-".
const LEAST_PAYLOAD: usize = 15;

/// The most bytes that the counter field or the chain field can have.
pub const LONGEST_FIELD: usize = (LONGEST_PAYLOAD - LEAST_PAYLOAD) / 4 * 3;

/// The most bytes that one of the two can have where the other has so many.
pub fn longest_beside(length: usize) -> usize {
    (LONGEST_PAYLOAD - LEAST_PAYLOAD - base64::padded_letters(length)) / 4 * 3
}

/// The bytes of counter field and chain field: those of a receipt, a few, or as many as a payload has room for.
pub fn field_lengths(random: &Random) -> [usize; 2] {
    let one = random.pick(&[5 + random.below(4), random.below(11), random.below(LONGEST_FIELD + 1)]);
    let most = longest_beside(one);
    let other = random.pick(&[8, random.below(11), most, random.below(most + 1)]).min(most);
    if random.once_in(2) { [one, other] } else { [other, one] }
}

/// A code with so many bytes in counter field and chain field and a payload of so many bytes, or of as few as there can
/// be. The other fields are any bytes.
pub fn printed(random: &Random, [counter, chain]: [usize; 2], payload: usize) -> Printed {
    const FREE: [usize; 10] = [0, 1, 2, 3, 4, 5, 6, 7, 8, 10];
    let mut parts = vec![Vec::new(); SIGNED + 1];
    parts[0] = b"R1-".to_vec();
    parts[COUNTER] = random.bytes(counter);
    parts[CHAIN] = random.bytes(chain);
    parts[SIGNED] = if random.once_in(4) { FAILURE.to_vec() } else { random.bytes(64) };
    let mut printed = Printed { parts };
    for _ in printed.payload().len()..payload {
        let byte = random.pick(&[random.byte(), random.byte(), b'=', b'A', b'0']);
        printed.parts[random.pick(&FREE)].push(if byte == b'_' { b'-' } else { byte });
    }
    printed
}
