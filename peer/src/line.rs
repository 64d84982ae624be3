//! The optical line of a code, and back to the code. The line has counter field, chain field and signature in BASE32 in
//! place of BASE64; all else is copied as it is.

use crate::code::{payload_good, read_code};
use crate::receipt::{LONGEST_PAYLOAD, signature_good};
use crate::settings::Number;
use crate::text::Text;
use crate::{base32, base64};

/// A receipt's longest payload, whose two fields of 12 letters have 16 here, "_", and the letters of a signature.
pub const LONGEST_LINE: usize = LONGEST_PAYLOAD + 2 * 4 + 1 + base32::padded_letters(64);
/// The same with the fields that grow most: 8 letters have 16 here, and 168 letters have 208.
pub const LONGEST_ANY_LINE: usize = LONGEST_PAYLOAD + 8 + 40 + 1 + base32::padded_letters(64);

/// Has room for any line, and so for any code, which is never longer than its line.
type LineText = Text<LONGEST_ANY_LINE>;

/// More bytes are in no field of a payload.
const FIELD_ROOM: usize = LONGEST_PAYLOAD / 4 * 3;

/// A payload of twelve fields, in four parts: up to the counter field, that field, up to the chain field, that field.
/// None where there are more fields, or less.
fn parted(payload: &[u8]) -> Option<[&[u8]; 4]> {
    if payload.iter().filter(|&&byte| byte == b'_').count() != 12 {
        return None;
    }
    let mut last = payload.rsplit(|&byte| byte == b'_');
    let [chain, serial, counter] = [last.next()?, last.next()?, last.next()?];
    let (rest, chain) = payload.split_at(payload.len() - chain.len());
    let (rest, between) = rest.split_at(rest.len() - serial.len() - 2);
    let (before, counter) = rest.split_at(rest.len() - counter.len());
    Some([before, counter, between, chain])
}

fn push_base32(text: &mut LineText, data: &[u8]) {
    base32::write_padded(data, text.room(base32::padded_letters(data.len())));
}

fn push_base64(text: &mut LineText, data: &[u8]) {
    base64::write_padded(data, text.room(base64::padded_letters(data.len())));
}

/// Adds a field of BASE64 in BASE32; None where it is not canonical.
fn push_in_base32(text: &mut LineText, field: &[u8]) -> Option<()> {
    let mut data = [0; FIELD_ROOM];
    let length = base64::read_padded(field, &mut data)?;
    push_base32(text, &data[..length]);
    Some(())
}

/// Adds a field of BASE32 in BASE64; None where it is not canonical, or longer than a field can be.
fn push_in_base64(text: &mut LineText, field: &[u8]) -> Option<()> {
    let mut data = [0; FIELD_ROOM];
    let length = base32::read_padded(field, &mut data)?;
    push_base64(text, &data[..length]);
    Some(())
}

/// A payload with counter field and chain field added by `push_field`; None where one of them can't be, or where there
/// are other than twelve fields.
fn respelled(payload: &[u8], push_field: fn(&mut LineText, &[u8]) -> Option<()>) -> Option<LineText> {
    let [before, counter, between, chain] = parted(payload)?;
    let mut text = Text::new();
    text.push_all(before);
    push_field(&mut text, counter)?;
    text.push_all(between);
    push_field(&mut text, chain)?;
    Some(text)
}

/// The line of a code: questions 24 and 26.
pub fn line(code: &[u8]) -> Result<LineText, Number> {
    let (payload, signature, length) = read_code(code).ok_or(24u32)?;
    let mut text = respelled(payload, push_in_base32).ok_or(26u32)?;
    text.push(b'_');
    push_base32(&mut text, &signature[..length]);
    Ok(text)
}

/// The code of a line; None where it is the line of no code (question 27).
pub fn unline(line: &[u8]) -> Option<LineText> {
    if line.len() > LONGEST_ANY_LINE {
        return None;
    }
    let last = line.iter().rposition(|&byte| byte == b'_')?;
    let mut text = respelled(&line[..last], push_in_base64).filter(|payload| payload_good(payload.bytes()))?;
    let mut signature = [0; 64];
    let length = base32::read_padded(&line[last + 1..], &mut signature)?;
    if !signature_good(&signature[..length]) {
        return None;
    }
    text.push(b'_');
    push_base64(&mut text, &signature[..length]);
    Some(text)
}
