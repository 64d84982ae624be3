//! A receipt's details, its payload and compact form: written, and read.

use crate::base64;
use crate::crypto::{Aes256, sha256, sha256_of};
use crate::settings::Settings;
use crate::text::Text;

/// BASE64-URL of {"alg":"ES256"}.
pub const HEADER: &[u8; 20] = b"eyJhbGciOiJFUzI1NiJ9";
/// What stands for the signature when the device has failed.
pub const FAILURE: &[u8; 34] = b"Sicherheitseinrichtung ausgefallen";
/// BASE64 of "STO" and "TRA".
const STO: &[u8; 4] = b"U1RP";
const TRA: &[u8; 4] = b"VFJB";

/// The most cents of an amount, either way.
pub const AMOUNT_LIMIT: i64 = 99_999_999_999;
/// The most bytes of a payload.
pub const LONGEST_PAYLOAD: usize = 200;
/// The header element, ".", and the letters of a payload.
pub const LONGEST_INPUT: usize = HEADER.len() + 1 + base64::letters(LONGEST_PAYLOAD);
/// The same, ".", and the letters of a signature of 64 bytes.
pub const LONGEST_COMPACT: usize = LONGEST_INPUT + 1 + base64::letters(64);

#[derive(Clone, Copy, Debug, PartialEq, Eq)]
pub enum Kind {
    Standard,
    Cancellation,
    Training,
}

impl Kind {
    /// The kind with this number of the interface.
    pub fn of(number: u32) -> Option<Kind> {
        match number {
            0 => Some(Kind::Standard),
            1 => Some(Kind::Cancellation),
            2 => Some(Kind::Training),
            _ => None,
        }
    }

    /// The number of the interface for this kind.
    pub fn number(self) -> u32 {
        match self {
            Kind::Standard => 0,
            Kind::Cancellation => 1,
            Kind::Training => 2,
        }
    }
}

#[derive(Clone, Copy, Debug, Default, PartialEq, Eq)]
pub struct Date {
    pub year: u32,
    pub month: u32,
    pub day: u32,
    pub hour: u32,
    pub minute: u32,
    pub second: u32,
}

impl Date {
    /// Year 2000 to 2099, date in the Gregorian calendar, hour 0 to 23, minute and second 0 to 59?
    pub fn good(&self) -> bool {
        // in these years every fourth is a leap year, 2000 too
        let days = match self.month {
            1 | 3 | 5 | 7 | 8 | 10 | 12 => 31,
            4 | 6 | 9 | 11 => 30,
            2 if self.year % 4 == 0 => 29,
            2 => 28,
            _ => return false,
        };
        (2000..=2099).contains(&self.year)
            && (1..=days).contains(&self.day)
            && self.hour <= 23
            && self.minute <= 59
            && self.second <= 59
    }
}

/// Details as a caller gives them; any values are possible. The amounts are cents at the standard rate, reduced 1,
/// reduced 2, zero and special; the kind is the number of the interface.
#[derive(Clone, Copy, Debug, Default, PartialEq, Eq)]
pub struct Details {
    pub number: u32,
    pub date: Date,
    pub amounts: [i64; 5],
    pub kind: u32,
}

pub fn amount_good(amount: i64) -> bool {
    (-AMOUNT_LIMIT..=AMOUNT_LIMIT).contains(&amount)
}

/// The counter after a receipt of good amounts, which may be outside of i64.
pub fn counter_after(counter: i64, kind: Kind, amounts: &[i64; 5]) -> i128 {
    match kind {
        Kind::Standard | Kind::Cancellation => {
            counter as i128 + amounts.iter().map(|&amount| amount as i128).sum::<i128>()
        }
        Kind::Training => counter as i128,
    }
}

/// Does the counter fit so many bytes in two's complement? The width is 5 to 8.
pub fn counter_fits(counter: i128, width: u64) -> bool {
    let end = 1i128 << (8 * width - 1);
    (-end..end).contains(&counter)
}

/// The first 8 bytes of SHA-256 of the previous compact form, or of the ID.
pub fn chain_value(text: &[u8]) -> [u8; 8] {
    *sha256(text).first_chunk().expect("32 bytes")
}

/// The IV of a counter: bytes 0 to 15 of SHA-256 of ID then number as spelled.
pub fn counter_iv(id: &[u8], number: &[u8]) -> [u8; 16] {
    *sha256_of(&[id, number]).first_chunk().expect("32 bytes")
}

/// The last `width` bytes of the counter in two's complement, combined with AES-256 of the IV; in the first places.
pub fn encrypt_counter(aes: &Aes256, iv: &[u8; 16], counter: i64, width: usize) -> [u8; 8] {
    let plain = counter.to_be_bytes();
    let stream = aes.encrypt(iv);
    let mut encrypted = [0; 8];
    for i in 0..width {
        encrypted[i] = plain[8 - width + i] ^ stream[i];
    }
    encrypted
}

/// The counter whose encryption the first `width` bytes are.
pub fn decrypt_counter(aes: &Aes256, iv: &[u8; 16], encrypted: &[u8; 8], width: usize) -> i64 {
    let stream = aes.encrypt(iv);
    let mut plain = [0; 8];
    for i in 0..width {
        plain[8 - width + i] = encrypted[i] ^ stream[i];
    }
    let unused = 64 - 8 * width as u32;
    i64::from_be_bytes(plain) << unused >> unused
}

// ---- writing

/// The decimal digits of a number without leading zeros.
pub fn digits(number: u64) -> Text<20> {
    let mut backwards = [0; 20];
    let mut length = 0;
    let mut rest = number;
    loop {
        backwards[length] = b'0' + (rest % 10) as u8;
        length += 1;
        rest /= 10;
        if rest == 0 {
            break;
        }
    }
    let mut text = Text::new();
    for &digit in backwards[..length].iter().rev() {
        text.push(digit);
    }
    text
}

fn push_two_digits<const ROOM: usize>(text: &mut Text<ROOM>, number: u32) {
    text.push(b'0' + (number / 10) as u8);
    text.push(b'0' + (number % 10) as u8);
}

/// "-" only below zero, euros without leading zeros, ",", two digits.
pub fn push_amount<const ROOM: usize>(text: &mut Text<ROOM>, amount: i64) {
    if amount < 0 {
        text.push(b'-');
    }
    let cents = amount.unsigned_abs();
    text.push_all(digits(cents / 100).bytes());
    text.push(b',');
    push_two_digits(text, (cents % 100) as u32);
}

/// As 2016-02-29T08:05:00; the date is good.
pub fn push_date<const ROOM: usize>(text: &mut Text<ROOM>, date: &Date) {
    push_two_digits(text, date.year / 100);
    push_two_digits(text, date.year % 100);
    for (separator, part) in
        [(b'-', date.month), (b'-', date.day), (b'T', date.hour), (b':', date.minute), (b':', date.second)]
    {
        text.push(separator);
        push_two_digits(text, part);
    }
}

/// The payload of a receipt under good settings and with good details; `counter` is the one after this receipt.
pub fn payload(
    settings: &Settings,
    details: &Details,
    kind: Kind,
    counter: i64,
    chain: &[u8; 8],
) -> Text<LONGEST_PAYLOAD> {
    let mut text = Text::new();
    let number = digits(details.number as u64);
    text.push_all(b"_R1-");
    text.push_all(&settings.csp);
    text.push(b'_');
    text.push_all(settings.id());
    text.push(b'_');
    text.push_all(number.bytes());
    text.push(b'_');
    push_date(&mut text, &details.date);
    for amount in details.amounts {
        text.push(b'_');
        push_amount(&mut text, amount);
    }
    text.push(b'_');
    match kind {
        Kind::Standard => {
            let width = settings.width as usize;
            let iv = counter_iv(settings.id(), number.bytes());
            let encrypted = encrypt_counter(&Aes256::new(&settings.key), &iv, counter, width);
            base64::write_padded(&encrypted[..width], text.room(base64::padded_letters(width)));
        }
        Kind::Cancellation => text.push_all(STO),
        Kind::Training => text.push_all(TRA),
    }
    text.push(b'_');
    text.push_all(settings.serial());
    text.push(b'_');
    base64::write_padded(chain, text.room(12));
    text
}

/// The compact form up to its second ".", without it.
pub fn signing_input<const ROOM: usize>(payload: &[u8]) -> Text<ROOM> {
    let mut text = Text::new();
    text.push_all(HEADER);
    text.push(b'.');
    base64::write_url(payload, text.room(base64::letters(payload.len())));
    text
}

/// The compact form; the signature has 64 bytes or is the failure text.
pub fn compact_form(payload: &[u8], signature: &[u8]) -> Text<LONGEST_COMPACT> {
    let mut text = signing_input(payload);
    text.push(b'.');
    base64::write_url(signature, text.room(base64::letters(signature.len())));
    text
}

// ---- reading

/// A payload and a signature out of a compact form.
pub struct Parts {
    payload: [u8; LONGEST_PAYLOAD],
    payload_length: usize,
    signature: [u8; 64],
    signature_length: usize,
}

impl Parts {
    pub fn payload(&self) -> &[u8] {
        &self.payload[..self.payload_length]
    }

    pub fn signature(&self) -> &[u8] {
        &self.signature[..self.signature_length]
    }
}

/// 64 bytes, or the failure text.
pub fn signature_good(signature: &[u8]) -> bool {
    signature.len() == 64 || signature == FAILURE
}

/// Three canonical elements, the first fixed, at most LONGEST_PAYLOAD bytes in the second, a signature in the third.
pub fn read_compact(form: &[u8]) -> Option<Parts> {
    let rest = form.strip_prefix(HEADER)?.strip_prefix(b".")?;
    let dot = rest.iter().position(|&byte| byte == b'.')?;
    let (second, third) = (&rest[..dot], &rest[dot + 1..]);
    let mut parts = Parts { payload: [0; LONGEST_PAYLOAD], payload_length: 0, signature: [0; 64], signature_length: 0 };
    parts.payload_length = base64::read_url(second, &mut parts.payload)?;
    parts.signature_length = base64::read_url(third, &mut parts.signature)?;
    signature_good(parts.signature()).then_some(parts)
}

/// What an entry says.
#[derive(Clone, Copy, Debug, PartialEq, Eq)]
pub struct Receipt {
    pub number: u32,
    pub date: Date,
    pub amounts: [i64; 5],
    pub kind: Kind,
    /// The counter field's N bytes, of a standard receipt.
    pub encrypted: [u8; 8],
    pub chain: [u8; 8],
    /// None where the device had failed.
    pub signature: Option<[u8; 64]>,
}

impl Receipt {
    /// The details as Issue was given them.
    pub fn details(&self) -> Details {
        Details { number: self.number, date: self.date, amounts: self.amounts, kind: self.kind.number() }
    }
}

/// A number of 1 to 4,294,967,295 without leading zeros.
pub fn read_number(text: &[u8]) -> Option<u32> {
    if text.is_empty() || text.len() > 10 || text[0] == b'0' {
        return None;
    }
    let mut number = 0u64;
    for &byte in text {
        number = number * 10 + digit(byte)? as u64;
    }
    u32::try_from(number).ok()
}

fn digit(byte: u8) -> Option<u32> {
    byte.is_ascii_digit().then(|| (byte - b'0') as u32)
}

fn read_two_digits(text: &[u8]) -> Option<u32> {
    match text {
        [a, b] => Some(digit(*a)? * 10 + digit(*b)?),
        _ => None,
    }
}

/// A good date with its time, as 2016-02-29T08:05:00.
pub fn read_date(text: &[u8]) -> Option<Date> {
    let text: &[u8; 19] = text.try_into().ok()?;
    let separators = [text[4], text[7], text[10], text[13], text[16]];
    if &separators != b"--T::" {
        return None;
    }
    let date = Date {
        year: read_two_digits(&text[0..2])? * 100 + read_two_digits(&text[2..4])?,
        month: read_two_digits(&text[5..7])?,
        day: read_two_digits(&text[8..10])?,
        hour: read_two_digits(&text[11..13])?,
        minute: read_two_digits(&text[14..16])?,
        second: read_two_digits(&text[17..19])?,
    };
    date.good().then_some(date)
}

/// An amount as it is spelled, within the limits or not; None where the cents without their sign are beyond i64.
pub fn read_cents(text: &[u8]) -> Option<i64> {
    let (negative, unsigned) = match text {
        [b'-', unsigned @ ..] => (true, unsigned),
        unsigned => (false, unsigned),
    };
    let [euros @ .., b',', tens, ones] = unsigned else { return None };
    if euros.is_empty() || (euros[0] == b'0' && euros.len() > 1) {
        return None;
    }
    let mut cents = 0i64;
    for &byte in euros.iter().chain([tens, ones]) {
        cents = cents.checked_mul(10)?.checked_add(digit(byte)? as i64)?;
    }
    match (negative, cents) {
        (true, 0) => None,
        (true, _) => Some(-cents),
        (false, _) => Some(cents),
    }
}

/// An amount within the limits.
pub fn read_amount(text: &[u8]) -> Option<i64> {
    read_cents(text).filter(|&amount| amount_good(amount))
}

/// The receipt that a compact form spells under these settings; None where it spells none (question 16).
pub fn read_entry(settings: &Settings, form: &[u8]) -> Option<Receipt> {
    let parts = read_compact(form)?;
    let width = settings.width as usize;
    let mut fields = parts.payload().strip_prefix(b"_")?.split(|&byte| byte == b'_');

    if fields.next()?.strip_prefix(b"R1-")? != settings.csp {
        return None;
    }
    if fields.next()? != settings.id() {
        return None;
    }
    let number = read_number(fields.next()?)?;
    let date = read_date(fields.next()?)?;
    let mut amounts = [0; 5];
    for amount in &mut amounts {
        *amount = read_amount(fields.next()?)?;
    }
    let counter_field = fields.next()?;
    let mut encrypted = [0; 8];
    let kind = if counter_field == STO {
        Kind::Cancellation
    } else if counter_field == TRA {
        Kind::Training
    } else if base64::read_padded(counter_field, &mut encrypted)? == width {
        Kind::Standard
    } else {
        return None;
    };
    if fields.next()? != settings.serial() {
        return None;
    }
    let mut chain = [0; 8];
    if base64::read_padded(fields.next()?, &mut chain)? != 8 {
        return None;
    }
    if fields.next().is_some() {
        return None;
    }
    // the failure text has 34 bytes
    let signature = parts.signature().try_into().ok();
    Some(Receipt { number, date, amounts, kind, encrypted, chain, signature })
}
