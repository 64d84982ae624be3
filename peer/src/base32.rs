//! BASE32 (RFC 4648 section 6, padded).
//!
//! The reader is strict: it refuses wrong padding, foreign letters and unused bits that aren't zero.

use crate::base64::values;

const LETTERS: &[u8; 32] = b"ABCDEFGHIJKLMNOPQRSTUVWXYZ234567";
const VALUES: [u8; 256] = values(LETTERS);

/// The letters that spell the bytes of a last group, 1 to 4.
const LETTERS_OF_BYTES: [usize; 5] = [0, 2, 4, 5, 7];

/// Letters with padding for so many bytes.
pub const fn padded_letters(length: usize) -> usize {
    length.div_ceil(5) * 8
}

/// Eight letters for 40 bits.
fn write_group(group: &[u8; 5]) -> [u8; 8] {
    let letter = |bits: u64| LETTERS[(bits & 31) as usize];
    let [a, b, c, d, e] = group.map(u64::from);
    let bits = a << 32 | b << 24 | c << 16 | d << 8 | e;
    [
        letter(bits >> 35),
        letter(bits >> 30),
        letter(bits >> 25),
        letter(bits >> 20),
        letter(bits >> 15),
        letter(bits >> 10),
        letter(bits >> 5),
        letter(bits),
    ]
}

/// Writes BASE32; `text` has exactly `padded_letters(data.len())` bytes.
pub fn write_padded(data: &[u8], text: &mut [u8]) {
    let (groups, rest) = data.as_chunks::<5>();
    let (whole, last) = text.split_at_mut(groups.len() * 8);
    for (group, letters) in groups.iter().zip(whole.as_chunks_mut::<8>().0) {
        *letters = write_group(group);
    }
    if !rest.is_empty() {
        let mut group = [0; 5];
        group[..rest.len()].copy_from_slice(rest);
        last.copy_from_slice(&write_group(&group));
        last[LETTERS_OF_BYTES[rest.len()]..].fill(b'=');
    }
}

/// The text of these bytes.
pub fn padded_text(data: &[u8]) -> Vec<u8> {
    let mut text = vec![0; padded_letters(data.len())];
    write_padded(data, &mut text);
    text
}

/// The 40 bits of eight letters; None where one is foreign.
fn read_group(letters: &[u8; 8]) -> Option<[u8; 5]> {
    let [a, b, c, d, e, f, g, h] = letters.map(|letter| VALUES[letter as usize] as u64);
    if a | b | c | d | e | f | g | h > 31 {
        return None;
    }
    let bits = a << 35 | b << 30 | c << 25 | d << 20 | e << 15 | f << 10 | g << 5 | h;
    let [_, _, _, group @ ..] = bits.to_be_bytes();
    Some(group)
}

/// Reads a last group of 1 to 4 bytes, which ends with padding.
fn read_last(letters: &[u8; 8], data: &mut [u8]) -> Option<()> {
    let mut letters = *letters;
    letters[LETTERS_OF_BYTES[data.len()]..].fill(b'A');
    let group = read_group(&letters)?;
    let (bytes, unused) = group.split_at(data.len());
    data.copy_from_slice(bytes);
    unused.iter().all(|&byte| byte == 0).then_some(())
}

/// Reads BASE32 into the start of `data`: the number of bytes, or None where the text is not canonical or spells more
/// bytes than `data` has.
pub fn read_padded(text: &[u8], data: &mut [u8]) -> Option<usize> {
    let (groups, []) = text.as_chunks::<8>() else { return None };
    // the bytes that the last group lacks
    let lacking = match text.iter().rev().take_while(|&&byte| byte == b'=').count() {
        0 => 0,
        1 => 1,
        3 => 2,
        4 => 3,
        6 => 4,
        _ => return None,
    };
    let length = groups.len() * 5 - lacking;
    let (whole, last) = data.get_mut(..length)?.as_chunks_mut::<5>();
    for (letters, group) in groups.iter().zip(whole) {
        *group = read_group(letters)?;
    }
    if let [.., letters] = groups
        && !last.is_empty()
    {
        read_last(letters, last)?;
    }
    Some(length)
}
