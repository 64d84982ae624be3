//! What the fuzzer's bytes say, done by both sides. The first byte chooses the call, the rest are its inputs; every
//! text of bytes is an input.

use std::sync::OnceLock;

use crate::base32::padded_letters;
use crate::calls::{Calls, Listed, Peer};
use crate::compare::{Compare, Compared, demand};
use crate::layout::{DETAILS, SETTINGS, SIGNATURE, STATE, details_of};
use crate::model::{Export, Journal, Pair, SERIAL};
use crate::receipt::{Date, Details, LONGEST_INPUT};

const KEY: [u8; 32] = [7; 32];
const WIDTH: usize = 5;

/// Does one input.
pub fn one_input(compare: &mut Compare, input: &[u8]) -> Compared<()> {
    let Some((choice, rest)) = input.split_first() else { return Ok(()) };
    match choice % 19 {
        0 => take_over(compare, rest),
        1 => edited_journal(compare, rest),
        2 => code(compare, rest),
        3 => uncode(compare, rest),
        4 => unbase64(compare, rest),
        5 => issue(compare, rest),
        6 => read(compare, rest),
        7 => line(compare, rest),
        8 => unline(compare, rest),
        9 => base32(compare, rest),
        10 => unbase32(compare, rest),
        11 => change(compare, rest),
        12 => edited_pairs(compare, rest),
        13 => issue_list(compare, rest),
        14 => check_steps(compare, rest),
        15 => in_parts(compare, rest),
        16 => export(compare, rest),
        17 => read_export(compare, rest),
        _ => edited_export(compare, rest),
    }
}

/// N in one byte, 32 of key, the journal, as the program takeover reads them.
fn take_over(compare: &mut Compare, input: &[u8]) -> Compared<()> {
    let Some((width, rest)) = input.split_first() else { return Ok(()) };
    let Some((key, journal)) = rest.split_at_checked(32) else { return Ok(()) };
    compare.take_over(journal, key, *width as usize, &mut [0xaa; STATE])?;
    Ok(())
}

/// 447 bytes of state, the steps in a byte, and a journal.
fn check_steps(compare: &mut Compare, input: &[u8]) -> Compared<()> {
    let Some((state, rest)) = input.split_at_checked(STATE) else { return Ok(()) };
    let Some((steps, journal)) = rest.split_first() else { return Ok(()) };
    compare.check_steps(&mut state.to_vec(), journal, steps_of(*steps))?;
    Ok(())
}

/// Steps of checks: how many checks, and a byte for each. Then the same as for Take over.
fn in_parts(compare: &mut Compare, input: &[u8]) -> Compared<()> {
    let Some((checks, rest)) = input.split_first() else { return Ok(()) };
    let Some((list, rest)) = rest.split_at_checked(*checks as usize) else { return Ok(()) };
    let Some((width, rest)) = rest.split_first() else { return Ok(()) };
    let Some((key, journal)) = rest.split_at_checked(32) else { return Ok(()) };
    let list: Vec<usize> = list.iter().map(|&steps| steps_of(steps)).collect();
    compare.take_over_in_parts(journal, key, *width as usize, &list, &mut [0xaa; STATE])?;
    Ok(())
}

/// So many steps; the last byte says as many as there can be.
fn steps_of(byte: u8) -> usize {
    if byte == u8::MAX { usize::MAX } else { byte as usize }
}

/// Edits of a valid journal: three bytes each (entry, part, length) and the new bytes of that part. Then the chain, or
/// counters and chain, are made right after the first edit, and the journal is taken over. Each entry is read, too.
fn edited_journal(compare: &mut Compare, input: &[u8]) -> Compared<()> {
    let Some((repair, mut rest)) = input.split_first() else { return Ok(()) };
    let mut journal = valid_journal().clone();
    let pair = &mut journal.pairs[0];
    let entries = pair.entries.len();
    let mut first = entries;
    while let [entry, part, length, after @ ..] = rest {
        let place = *entry as usize % entries;
        let (text, after) = after.split_at(after.len().min(*length as usize));
        rest = after;
        first = first.min(place);
        let entry = &mut pair.entries[place];
        match *part {
            field @ 0..12 => entry.fields[field as usize] = text.to_vec(),
            12 => entry.header = text.to_vec(),
            13 => entry.lead = text.to_vec(),
            14 => entry.signature = text.to_vec(),
            15 => entry.raw = Some(text.to_vec()),
            16 => pair.count = text.iter().fold(0, |count, &byte| count << 8 | byte as u32),
            _ => {
                let mut raw = entry.form();
                for pair in text.as_chunks::<2>().0 {
                    let at = pair[0] as usize + (*part as usize & 1) * 256;
                    if let Some(byte) = raw.get_mut(at) {
                        *byte = pair[1];
                    }
                }
                entry.raw = Some(raw);
            }
        }
    }
    // the chain field of the edited entry stays as it was edited, but for the last choice
    match repair % 4 {
        0 => (),
        1 => journal.chain_right(first + 1),
        2 => {
            journal.counters_right(first + 1, &KEY, WIDTH);
            journal.chain_right(first + 1);
        }
        _ => {
            journal.counters_right(first, &KEY, WIDTH);
            journal.chain_right(first);
        }
    }
    compare.take_over(&journal.bytes(), &KEY, WIDTH, &mut [0xaa; STATE])?;
    read_entries(compare, &journal)
}

fn read_entries(compare: &mut Compare, journal: &Journal) -> Compared<()> {
    let settings = valid_settings();
    for entry in journal.entries() {
        compare.read(&settings, &entry.form(), &mut [0xaa; DETAILS], &mut [0xaa; SIGNATURE])?;
    }
    Ok(())
}

fn valid_settings() -> [u8; SETTINGS] {
    let mut settings = [0; SETTINGS];
    assert_eq!(Peer.settings(b"AT0", b"K-1", b"2a", WIDTH, &KEY, &mut settings), 0);
    settings
}

/// Four receipts: the start receipt, a sale with the device failed, a cancellation and training.
fn valid_journal() -> &'static Journal {
    static JOURNAL: OnceLock<Journal> = OnceLock::new();
    JOURNAL.get_or_init(|| {
        let (mut buffer, mut state) = ([0; 2000], [0; STATE]);
        assert_eq!(Peer.open(&valid_settings(), &mut buffer, &mut state), 0);
        let date = Date { year: 2016, month: 2, day: 29, hour: 8, minute: 5, second: 0 };
        for (number, amounts, kind) in
            [(1, [0; 5], 0), (2, [1050, 0, -5, 78, 0], 0), (10, [-500, 0, 0, 0, 0], 1), (11, [5, 0, 0, 0, 0], 2)]
        {
            let signature = if number == 2 { &[][..] } else { &[number as u8; 64] };
            assert_eq!(Peer.issue(&mut state, &Details { number, date, amounts, kind }, signature, &mut buffer), 0);
        }
        Journal::of(&buffer[..Peer.journal_length(&state)])
    })
}

/// Edits of a valid journal of pairs: three bytes each (pair, part, length) and the new bytes of that part. Then nothing, the
/// chain, or counters and chain, are made right, and the journal is taken over.
fn edited_pairs(compare: &mut Compare, input: &[u8]) -> Compared<()> {
    let Some((repair, mut rest)) = input.split_first() else { return Ok(()) };
    let mut journal = valid_pairs().clone();
    let mut after = Vec::new();
    while let [pair, part, length, tail @ ..] = rest {
        let pairs = journal.pairs.len();
        let place = *pair as usize % pairs;
        let (text, tail) = tail.split_at(tail.len().min(*length as usize));
        rest = tail;
        let pair = &mut journal.pairs[place];
        match part % 6 {
            0 => pair.serial = text.to_vec(),
            1 => pair.count = text.iter().fold(0, |count, &byte| count << 8 | byte as u32),
            2 => pair.entries.iter_mut().for_each(|entry| entry.fields[SERIAL] = text.to_vec()),
            3 if pairs < 12 => journal.pairs.insert(place + 1, Pair::empty(text)),
            4 => {
                let entry = pair.entries.pop();
                journal.pairs[0].entries.extend(entry);
            }
            _ => after.extend(text),
        }
    }
    match repair % 3 {
        0 => (),
        1 => journal.chain_right(0),
        _ => {
            journal.counters_right(0, &KEY, WIDTH);
            journal.chain_right(0);
        }
    }
    compare.take_over(&[journal.bytes(), after].concat(), &KEY, WIDTH, &mut [0xaa; STATE])?;
    Ok(())
}

/// The four receipts of the valid journal in four pairs, the first of them and the third without any.
fn valid_pairs() -> &'static Journal {
    static JOURNAL: OnceLock<Journal> = OnceLock::new();
    JOURNAL.get_or_init(|| {
        let mut journal = valid_journal().clone();
        let mut second = Pair { serial: b"2b".to_vec(), ..journal.pairs[0].clone() };
        let last = second.entries.split_off(2);
        let mut fourth = Pair { serial: b"0".to_vec(), count: 2, entries: last };
        second.count = 2;
        for pair in [&mut second, &mut fourth] {
            let serial = pair.serial.clone();
            pair.entries.iter_mut().for_each(|entry| entry.fields[SERIAL] = serial.clone());
        }
        journal.pairs = vec![Pair::empty(b"2a"), second, Pair::empty(b"f00d"), fourth];
        journal.chain_right(0);
        journal
    })
}

/// 447 bytes of state, the size of the buffer in two bytes, and a serial.
fn change(compare: &mut Compare, input: &[u8]) -> Compared<()> {
    let Some((state, rest)) = input.split_at_checked(STATE) else { return Ok(()) };
    let Some(([high, low], serial)) = rest.split_first_chunk() else { return Ok(()) };
    compare.figures(state)?;
    for which in 0..9 {
        compare.serial(state, which, &mut [0xaa; 32])?;
        compare.settings_in(state, which, &mut [0xaa; SETTINGS])?;
    }
    let mut journal = vec![0xaa; u16::from_be_bytes([*high, *low]) as usize % 1000];
    compare.change(&mut state.to_vec(), serial, &mut journal)?;
    Ok(())
}

/// The room in the output, and a compact form.
fn code(compare: &mut Compare, input: &[u8]) -> Compared<()> {
    let Some((room, form)) = input.split_first() else { return Ok(()) };
    compare.code(form, &mut vec![0xaa; 2 * *room as usize])?;
    compare.code(form, &mut [0xaa; 400])?;
    Ok(())
}

/// The room in the output, and a code.
fn uncode(compare: &mut Compare, input: &[u8]) -> Compared<()> {
    let Some((room, code)) = input.split_first() else { return Ok(()) };
    compare.uncode(code, &mut vec![0xaa; 2 * *room as usize])?;
    compare.uncode(code, &mut [0xaa; 400])?;
    compare.fields(code)?;
    Ok(())
}

fn unbase64(compare: &mut Compare, input: &[u8]) -> Compared<()> {
    let Some((url, text)) = input.split_first() else { return Ok(()) };
    let mut output = vec![0xaa; text.len()];
    let written = compare.unbase64(*url as u32 % 2, text, &mut output)?;
    if written.number == 0 {
        compare.base64(*url as u32 % 2, &output[..written.length], &mut vec![0xaa; text.len()])?;
    }
    Ok(())
}

/// 447 bytes of state, the size of the buffer in two bytes, number, date, kind and amounts, and the signature.
fn issue(compare: &mut Compare, input: &[u8]) -> Compared<()> {
    let Some((state, rest)) = input.split_at_checked(STATE) else { return Ok(()) };
    let Some((figures, signature)) = rest.split_at_checked(2 + 4 + 2 + 5 + 1 + 40) else { return Ok(()) };
    let number = |start: usize, length: usize| {
        figures[start..start + length].iter().fold(0u64, |number, &byte| number << 8 | byte as u64)
    };
    let details = Details {
        number: number(2, 4) as u32,
        date: Date {
            year: number(6, 2) as u32,
            month: number(8, 1) as u32,
            day: number(9, 1) as u32,
            hour: number(10, 1) as u32,
            minute: number(11, 1) as u32,
            second: number(12, 1) as u32,
        },
        kind: number(13, 1) as u32,
        amounts: std::array::from_fn(|i| number(14 + 8 * i, 8) as i64),
    };
    let mut state = state.to_vec();
    compare.figures(&state)?;
    compare.prepare(&state, &details, &mut [0xaa; LONGEST_INPUT])?;
    let mut journal = vec![0xaa; number(0, 2) as usize % 1000];
    compare.issue(&mut state, &details, signature, &mut journal)?;
    Ok(())
}

/// 447 bytes of state, the size of the buffer in two bytes, and a list, whole or not: it must leave what the single calls leave.
fn issue_list(compare: &mut Compare, input: &[u8]) -> Compared<()> {
    let Some((state, rest)) = input.split_at_checked(STATE) else { return Ok(()) };
    let Some(([high, low], list)) = rest.split_first_chunk() else { return Ok(()) };
    let (mut held, mut journal) = (state.to_vec(), vec![0xaa; u16::from_be_bytes([*high, *low]) as usize % 3000]);
    let (mut after, mut written) = (held.clone(), journal.clone());
    let listed = compare.issue_list(&mut after, list, &mut written)?;
    let (details, []) = list.as_chunks::<DETAILS>() else { return Ok(()) };
    let mut single = Listed { number: 0, issued: 0 };
    for bytes in details {
        single.number = compare.issue(&mut held, &details_of(bytes), &[], &mut journal)?;
        if single.number != 0 {
            break;
        }
        single.issued += 1;
    }
    demand(listed == single, "a list is its single calls up to the first that is refused", input)?;
    demand((after, written) == (held, journal), "a list leaves what its single calls leave", input)
}

/// Three lengths in a byte each, of the details, the signature and the settings; then the settings and a compact form.
fn read(compare: &mut Compare, input: &[u8]) -> Compared<()> {
    let [details, signature, length, rest @ ..] = input else { return Ok(()) };
    let (settings, form) = rest.split_at(rest.len().min(*length as usize));
    compare.read(settings, form, &mut vec![0xaa; *details as usize], &mut vec![0xaa; *signature as usize])?;
    compare.read(settings, form, &mut [0xaa; DETAILS], &mut [0xaa; SIGNATURE])?;
    Ok(())
}

/// The room in the output, and a code: its line must give it back.
fn line(compare: &mut Compare, input: &[u8]) -> Compared<()> {
    let Some((room, code)) = input.split_first() else { return Ok(()) };
    compare.line(code, &mut vec![0xaa; 2 * *room as usize])?;
    compare.line_and_back(code)?;
    Ok(())
}

/// The room in the output, and a line: its code must give it back.
fn unline(compare: &mut Compare, input: &[u8]) -> Compared<()> {
    let Some((room, line)) = input.split_first() else { return Ok(()) };
    compare.unline(line, &mut vec![0xaa; 2 * *room as usize])?;
    compare.unline_and_back(line)?;
    Ok(())
}

/// The room in the output, and bytes: their text must give them back.
fn base32(compare: &mut Compare, input: &[u8]) -> Compared<()> {
    let Some((room, data)) = input.split_first() else { return Ok(()) };
    compare.base32(data, &mut vec![0xaa; *room as usize])?;
    let mut text = vec![0xaa; padded_letters(data.len())];
    compare.base32(data, &mut text)?;
    let mut back = vec![0xaa; data.len()];
    compare.unbase32(&text, &mut back)?;
    demand(back == data, "BASE32 gives its bytes back", data)
}

/// The room in the output, and a text: its bytes must give it back.
fn unbase32(compare: &mut Compare, input: &[u8]) -> Compared<()> {
    let Some((room, text)) = input.split_first() else { return Ok(()) };
    compare.unbase32(text, &mut vec![0xaa; *room as usize])?;
    let mut data = vec![0xaa; text.len()];
    let read = compare.unbase32(text, &mut data)?;
    if read.number != 0 {
        return Ok(());
    }
    let mut back = vec![0xaa; text.len()];
    compare.base32(&data[..read.length], &mut back)?;
    demand(back == text, "bytes give their BASE32 back", text)
}

/// N in one byte, 32 of key, the length of the certificates in two bytes, the certificates, and the journal. What is written must
/// read back to the journal, or lack a receipt in an element.
fn export(compare: &mut Compare, input: &[u8]) -> Compared<()> {
    let Some((width, rest)) = input.split_first() else { return Ok(()) };
    let Some((key, rest)) = rest.split_at_checked(32) else { return Ok(()) };
    let Some(([high, low], rest)) = rest.split_first_chunk() else { return Ok(()) };
    let length = u16::from_be_bytes([*high, *low]) as usize;
    let (certificates, journal) = rest.split_at(rest.len().min(length));
    let mut text = vec![0xaa; 3 * input.len() + 1000];
    let exported = compare.export(journal, key, *width as usize, certificates, &mut text)?;
    if exported.number != 0 {
        return Ok(());
    }
    text.truncate(exported.length);
    compare.export(journal, key, *width as usize, certificates, &mut vec![0xaa; exported.length - 1])?;
    let mut back = vec![0xaa; text.len()];
    let read = compare.read_export(&text, key, *width as usize, &mut back, &mut [0xaa; STATE])?;
    back.truncate(read.length);
    demand(read.number == 29 || back == journal, "an export reads back to its journal", input)
}

/// N in one byte, 32 of key, the room in the output in two bytes, and the text.
fn read_export(compare: &mut Compare, input: &[u8]) -> Compared<()> {
    let Some((width, rest)) = input.split_first() else { return Ok(()) };
    let Some((key, rest)) = rest.split_at_checked(32) else { return Ok(()) };
    let Some(([high, low], text)) = rest.split_first_chunk() else { return Ok(()) };
    let mut output = vec![0xaa; u16::from_be_bytes([*high, *low]) as usize];
    compare.read_export(text, key, *width as usize, &mut output, &mut [0xaa; STATE])?;
    text_read(compare, text, key, *width as usize)
}

/// Read export into an output as long as the text: it is enough, and what is accepted is a journal that Take over accepts.
fn text_read(compare: &mut Compare, text: &[u8], key: &[u8], width: usize) -> Compared<()> {
    let (mut journal, mut state, mut taken) = (vec![0xaa; text.len()], [0xaa; STATE], [0xaa; STATE]);
    let read = compare.read_export(text, key, width, &mut journal, &mut state)?;
    demand(read.number != 23, "an output as long as the text is enough", text)?;
    if read.number == 0 {
        let answer = compare.take_over(&journal[..read.length], key, width, &mut taken)?;
        demand(answer.number == 0 && taken == state, "the journal of a text is accepted", text)?;
    }
    Ok(())
}

/// Edits of the marks and strings of a valid export: three bytes each (place, part, length) and the new bytes of that part.
fn edited_export(compare: &mut Compare, input: &[u8]) -> Compared<()> {
    let mut rest = input;
    let mut tokens = valid_export().tokens();
    while let [place, part, length, after @ ..] = rest {
        let place = *place as usize % tokens.len();
        let (text, after) = after.split_at(after.len().min(*length as usize));
        rest = after;
        let last = tokens[place].len() - 1;
        match part % 6 {
            0 => tokens[place] = [b"\"", text, b"\""].concat(),
            1 => tokens.insert(place, text.to_vec()),
            2 if last > 0 => drop(tokens[place].splice(last..last, text.iter().copied())),
            3 => {
                let other = (place + text.len()) % tokens.len();
                tokens.swap(place, other);
            }
            4 => tokens.insert(place, tokens[(place + text.len()) % tokens.len()].clone()),
            _ => tokens[place] = [&tokens[place][..], text].concat(),
        }
        tokens.retain(|token| !token.is_empty());
    }
    text_read(compare, &tokens.concat(), &KEY, WIDTH)
}

/// The export of the valid journal in two pairs.
fn valid_export() -> &'static Export {
    static EXPORT: OnceLock<Export> = OnceLock::new();
    EXPORT.get_or_init(|| {
        let mut journal = valid_pairs().clone();
        journal.pairs.retain(|pair| !pair.entries.is_empty());
        Export::with(&journal, &[vec![vec![1]], vec![vec![1, 2], vec![3]]])
    })
}
