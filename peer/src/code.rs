//! The machine-readable code of a compact form, back to the compact form, and the ID in it.

use std::ops::Range;

use crate::base64;
use crate::receipt::{LONGEST_PAYLOAD, compact_form, read_compact, signature_good};
use crate::settings::Number;

/// 4 to LONGEST_PAYLOAD bytes beginning "_R1-".
pub(crate) fn payload_good(payload: &[u8]) -> bool {
    payload.len() <= LONGEST_PAYLOAD && payload.starts_with(b"_R1-")
}

/// Writes payload, "_", BASE64 of the signature to the start of the output and returns its length.
pub fn code(form: &[u8], output: &mut [u8]) -> Result<usize, Number> {
    let Some(parts) = read_compact(form).filter(|parts| payload_good(parts.payload())) else { return Err(22) };
    let (payload, signature) = (parts.payload(), parts.signature());
    let start = payload.len() + 1;
    let length = start + base64::padded_letters(signature.len());
    if length > output.len() {
        return Err(23);
    }
    output[..payload.len()].copy_from_slice(payload);
    output[payload.len()] = b'_';
    base64::write_padded(signature, &mut output[start..length]);
    Ok(length)
}

/// A code's payload and its signature, parted at the last "_"; None where they are no such two.
pub(crate) fn read_code(code: &[u8]) -> Option<(&[u8], [u8; 64], usize)> {
    let last = code.iter().rposition(|&byte| byte == b'_')?;
    let payload = &code[..last];
    let mut signature = [0; 64];
    let length = base64::read_padded(&code[last + 1..], &mut signature)?;
    (payload_good(payload) && signature_good(&signature[..length])).then_some((payload, signature, length))
}

/// Writes the compact form of a code to the start of the output and returns its length.
pub fn uncode(code: &[u8], output: &mut [u8]) -> Result<usize, Number> {
    let Some((payload, signature, length)) = read_code(code) else { return Err(24) };
    let form = compact_form(payload, &signature[..length]);
    let form = form.bytes();
    if form.len() > output.len() {
        return Err(23);
    }
    output[..form.len()].copy_from_slice(form);
    Ok(form.len())
}

/// The place of the payload's ID field in the code, what stands between its second and third "_"; None where the answer
/// is 24.
pub fn fields(code: &[u8]) -> Option<Range<usize>> {
    let (payload, _, _) = read_code(code)?;
    let mut places = (0..payload.len()).filter(|&place| payload[place] == b'_');
    let (_first, second, third) = (places.next()?, places.next()?, places.next()?);
    let id = second + 1..third;
    (!id.is_empty()).then_some(id)
}

/// The longest payload, "_", and the letters of a signature of 64 bytes.
pub const LONGEST_CODE: usize = LONGEST_PAYLOAD + 1 + base64::padded_letters(64);
