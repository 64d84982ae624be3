//! BASE64 (RFC 4648 section 4, padded) and BASE64-URL (section 5, without padding as in RFC 7515).
//!
//! The readers are strict: they refuse wrong padding, foreign letters and unused bits that aren't zero.

const STANDARD: &[u8; 64] = b"ABCDEFGHIJKLMNOPQRSTUVWXYZabcdefghijklmnopqrstuvwxyz0123456789+/";
const URL: &[u8; 64] = b"ABCDEFGHIJKLMNOPQRSTUVWXYZabcdefghijklmnopqrstuvwxyz0123456789-_";

const FOREIGN: u8 = 0xff;
const STANDARD_VALUES: [u8; 256] = values(STANDARD);
const URL_VALUES: [u8; 256] = values(URL);

/// The value of each letter; FOREIGN for all others.
pub(crate) const fn values<const LETTERS: usize>(letters: &[u8; LETTERS]) -> [u8; 256] {
    let mut values = [FOREIGN; 256];
    let mut value = 0;
    while value < LETTERS {
        values[letters[value] as usize] = value as u8;
        value += 1;
    }
    values
}

/// Letters without padding for so many bytes.
pub const fn letters(length: usize) -> usize {
    length / 3 * 4 + [0, 2, 3][length % 3]
}

/// Letters with padding for so many bytes.
pub const fn padded_letters(length: usize) -> usize {
    length.div_ceil(3) * 4
}

/// Writes the letters without padding; `text` has exactly `letters(data.len())` bytes.
fn write(alphabet: &[u8; 64], data: &[u8], text: &mut [u8]) {
    let letter = |bits: u32| alphabet[(bits & 63) as usize];
    let (groups, rest) = data.as_chunks::<3>();
    let (quads, rest_text) = text.as_chunks_mut::<4>();
    for (group, quad) in groups.iter().zip(quads) {
        let bits = (group[0] as u32) << 16 | (group[1] as u32) << 8 | group[2] as u32;
        *quad = [letter(bits >> 18), letter(bits >> 12), letter(bits >> 6), letter(bits)];
    }
    match (rest, rest_text) {
        ([], []) => (),
        ([a], [p, q]) => {
            let bits = (*a as u32) << 4;
            (*p, *q) = (letter(bits >> 6), letter(bits));
        }
        ([a, b], [p, q, r]) => {
            let bits = (*a as u32) << 10 | (*b as u32) << 2;
            (*p, *q, *r) = (letter(bits >> 12), letter(bits >> 6), letter(bits));
        }
        _ => unreachable!("text of another length"),
    }
}

/// Reads letters without padding into the start of `data` and returns how many bytes they spell; None where the text is
/// not canonical or spells more bytes than `data` has.
fn read(values: &[u8; 256], text: &[u8], data: &mut [u8]) -> Option<usize> {
    let value = |letter: u8| values[letter as usize];
    let (quads, rest) = text.as_chunks::<4>();
    let length = quads.len() * 3 + rest.len() * 3 / 4;
    let data = data.get_mut(..length)?;
    let (groups, rest_data) = data.as_chunks_mut::<3>();
    let mut foreign = 0;
    for (quad, group) in quads.iter().zip(groups) {
        let [a, b, c, d] = [value(quad[0]), value(quad[1]), value(quad[2]), value(quad[3])];
        foreign |= a | b | c | d;
        let bits = (a as u32) << 18 | (b as u32) << 12 | (c as u32) << 6 | d as u32;
        *group = [(bits >> 16) as u8, (bits >> 8) as u8, bits as u8];
    }
    if foreign > 63 {
        return None;
    }
    match (rest, rest_data) {
        ([], []) => (),
        ([p, q], [x]) => {
            let [a, b] = [*p, *q].map(value);
            if a | b > 63 || b & 15 != 0 {
                return None;
            }
            *x = a << 2 | b >> 4;
        }
        ([p, q, r], [x, y]) => {
            let [a, b, c] = [*p, *q, *r].map(value);
            if a | b | c > 63 || c & 3 != 0 {
                return None;
            }
            (*x, *y) = (a << 2 | b >> 4, b << 4 | c >> 2);
        }
        // one letter alone spells no byte
        _ => return None,
    }
    Some(length)
}

/// Writes BASE64-URL; `text` has exactly `letters(data.len())` bytes.
pub fn write_url(data: &[u8], text: &mut [u8]) {
    write(URL, data, text);
}

/// Writes BASE64; `text` has exactly `padded_letters(data.len())` bytes.
pub fn write_padded(data: &[u8], text: &mut [u8]) {
    let (text, padding) = text.split_at_mut(letters(data.len()));
    write(STANDARD, data, text);
    padding.fill(b'=');
}

/// Reads BASE64-URL into the start of `data`: the number of bytes, or None where the text is not canonical or spells more
/// bytes than `data` has.
pub fn read_url(text: &[u8], data: &mut [u8]) -> Option<usize> {
    read(&URL_VALUES, text, data)
}

/// Reads BASE64 into the start of `data`, as `read_url`.
pub fn read_padded(text: &[u8], data: &mut [u8]) -> Option<usize> {
    if text.len() % 4 != 0 {
        return None;
    }
    let text = match text {
        [text @ .., b'=', b'='] => text,
        [text @ .., b'='] => text,
        _ => text,
    };
    read(&STANDARD_VALUES, text, data)
}
