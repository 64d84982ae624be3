//! What a round does with BASE32 and the optical line.

use super::{Accepted, Round};
use crate::calls::Written;
use crate::code::LONGEST_CODE;
use crate::compare::{Compared, demand};
use crate::line::{LONGEST_ANY_LINE, LONGEST_LINE};
use crate::model::{CHAIN, COUNTER, Printed, SIGNED, SPELLED, joined};
use crate::random::Random;
use crate::receipt::{FAILURE, LONGEST_PAYLOAD};
use crate::{base32, sample};

/// A spelling of bytes: its letters, how many make a whole group, and some bytes that are none of its letters.
struct Base {
    letters: &'static [u8],
    group: usize,
    foreign: &'static [u8],
}

const BASE64: Base = Base {
    letters: b"ABCDEFGHIJKLMNOPQRSTUVWXYZabcdefghijklmnopqrstuvwxyz0123456789+/",
    group: 4,
    foreign: b"-.@[`{ \n\0\xff",
};

const BASE32: Base =
    Base { letters: b"ABCDEFGHIJKLMNOPQRSTUVWXYZ234567", group: 8, foreign: b"0189abilo+/-@[ \n\0\xc1\xff" };

impl Base {
    /// A good text misspelled in each way that is easily let through. None of the texts is good.
    fn misspellings(&self, text: &[u8]) -> Vec<Vec<u8>> {
        let letters = text.iter().position(|&byte| byte == b'=').unwrap_or(text.len());
        let mut all = vec![[text, b"="].concat(), [text, &b"========"[..self.group]].concat(), [text, b"\n"].concat()];
        all.extend(self.wrong_groups().map(|group| [&text[..text.len().saturating_sub(self.group)], &group].concat()));
        if letters > 0 {
            all.push(text[..text.len() - 1].to_vec());
            all.push([&text[..1], b" ", &text[1..]].concat());
            all.push(with_byte(text, 0, b'='));
            all.extend(self.foreign.iter().map(|&byte| with_byte(text, 0, byte)));
        }
        if letters < text.len() {
            all.push(text[..letters].to_vec());
            all.push([text, text].concat());
            all.extend(self.stray_bits(text, letters));
        }
        all
    }

    fn bits(&self) -> usize {
        self.letters.len().ilog2() as usize
    }

    /// Last groups with a number of letters that no bytes have.
    fn wrong_groups(&self) -> impl Iterator<Item = Vec<u8>> {
        let wrong = (1..self.group).filter(|letters| letters * self.bits() % 8 >= self.bits());
        wrong.map(|letters| [vec![b'A'; letters], vec![b'='; self.group - letters]].concat())
    }

    /// The text with one of the unused bits in its last letter set.
    fn stray_bits(&self, text: &[u8], letters: usize) -> impl Iterator<Item = Vec<u8>> {
        let value = self.letters.iter().position(|&letter| letter == text[letters - 1]).expect("a letter");
        let unused = letters * self.bits() % 8;
        (0..unused).map(move |bit| with_byte(text, letters - 1, self.letters[value | 1 << bit]))
    }
}

fn with_byte(text: &[u8], place: usize, byte: u8) -> Vec<u8> {
    let mut other = text.to_vec();
    other[place] = byte;
    other
}

/// A code or a line of these texts.
type Texts = [Vec<u8>];

fn slices(texts: &Texts) -> Vec<&[u8]> {
    texts.iter().map(Vec::as_slice).collect()
}

/// A code or a line with another text at this place.
fn with_text(texts: &Texts, place: usize, text: &[u8]) -> Vec<u8> {
    let mut other = slices(texts);
    other[place] = text;
    joined(&other)
}

/// A code or a line without the field at this place.
fn without_field(texts: &Texts, place: usize) -> Vec<u8> {
    let mut less = slices(texts);
    less.remove(place);
    joined(&less)
}

/// A code or a line with a field more at this place.
fn with_field(texts: &Texts, place: usize, field: &[u8]) -> Vec<u8> {
    let mut more = slices(texts);
    more.insert(place, field);
    joined(&more)
}

/// Eleven fields and thirteen: one less or one more, at each place after the first field.
fn other_counts(texts: &Texts) -> Vec<Vec<u8>> {
    let less = (1..SIGNED).map(|place| without_field(texts, place));
    let more = (1..=SIGNED).flat_map(|place| [b"", &b"AAAAAAAA"[..]].map(|field| with_field(texts, place, field)));
    less.chain(more).collect()
}

/// Bytes that stand for no signature.
fn wrong_signatures(random: &Random) -> Vec<Vec<u8>> {
    let mut changed = FAILURE.to_vec();
    changed[random.below(FAILURE.len())] ^= 1 << random.below(8);
    let mut all = vec![changed, b"safety device failure".to_vec()];
    all.extend([0, 1, 33, 34, 35, 63, 65, 66, 96].map(|length| random.bytes(length)));
    all
}

/// So many bytes are written where there is room for them, and 23 is the answer where there is not.
fn demand_fit(written: Written, needed: usize, room: usize, text: &[u8]) -> Compared<()> {
    let fit = if needed <= room { Written { number: 0, length: needed } } else { Written { number: 23, length: 0 } };
    demand(written == fit, "a text is written where it fits", text)
}

impl Round<'_> {
    // ---- BASE32

    pub(super) fn base32(&mut self) -> Compared<()> {
        for _ in 0..3 {
            let length = self.random.pick(&[0, 1, 2, 3, 4, 5, 8, 34, 64, self.random.below(400)]);
            let data = self.garbage(length);
            let mut text = base32::padded_text(&data);
            let room = self.room(text.len());
            let mut output = self.garbage(room);
            self.compare.base32(&data, &mut output)?;

            match self.random.below(4) {
                0 => self.damage_bytes(&mut text),
                1 => text = self.base32_letters(),
                _ => (),
            }
            let room = self.room(length);
            let mut output = self.garbage(room);
            self.compare.unbase32(&text, &mut output)?;
        }
        self.base32_errors()
    }

    /// Letters of BASE32 in any order, with some padding.
    fn base32_letters(&self) -> Vec<u8> {
        let mut text: Vec<u8> = (0..self.random.below(18)).map(|_| self.random.pick(b"AAQEIYZ27=")).collect();
        text.resize(text.len().next_multiple_of(8), b'=');
        text
    }

    /// Texts with each number of letters in the last group, into outputs that just fit and just don't, and misspelled.
    fn base32_errors(&mut self) -> Compared<()> {
        for rest in 0..5 {
            let length = self.random.pick(&[0, 5]) + rest;
            let data = self.garbage(length);
            let text = base32::padded_text(&data);
            for room in [text.len(), text.len().saturating_sub(1), 0] {
                let written = self.compare.base32(&data, &mut vec![0x5a; room])?;
                demand_fit(written, text.len(), room, &data)?;
            }
            for room in [length, length.saturating_sub(1), 0] {
                let written = self.compare.unbase32(&text, &mut vec![0x5a; room])?;
                demand_fit(written, length, room, &text)?;
            }
            for wrong in BASE32.misspellings(&text) {
                let room = self.random.pick(&[0, length, 24]);
                let written = self.compare.unbase32(&wrong, &mut vec![0x5a; room])?;
                demand(written.number == 22, "misspelled BASE32 is refused", &wrong)?;
            }
        }
        Ok(())
    }

    // ---- good lines

    /// Each receipt of the journal.
    pub(super) fn lines_of(&mut self, accepted: &Accepted) -> Compared<()> {
        for form in accepted.forms() {
            self.line_of_a_receipt(&form)?;
        }
        Ok(())
    }

    /// The line of an issued receipt's code, which is no longer than a receipt's can be; its length.
    pub(super) fn line_of_a_receipt(&mut self, form: &[u8]) -> Compared<usize> {
        let printed = self.printed_of(form)?;
        let length = self.good_line(&printed)?.len();
        demand(length <= LONGEST_LINE, "a receipt's line is no longer than the longest", form)?;
        Ok(length)
    }

    /// What the code of an issued receipt says.
    fn printed_of(&mut self, form: &[u8]) -> Compared<Printed> {
        let mut code = vec![0; LONGEST_CODE];
        let written = self.compare.code(form, &mut code)?;
        demand(written.number == 0, "a receipt has a code", form)?;
        Ok(Printed::of(&code[..written.length]))
    }

    /// The line of a good code, there and back, into outputs of some lengths.
    fn good_line(&mut self, printed: &Printed) -> Compared<Vec<u8>> {
        let (code, line) = (printed.code(), printed.line());
        demand(self.compare.line_and_back(&code)?.as_ref() == Some(&line), "a code has its line", &code)?;
        let rooms = [self.room(line.len()), self.room(code.len())];
        self.line_into(printed, rooms)?;
        Ok(line)
    }

    /// A good code and its line into outputs of these lengths.
    fn line_into(&mut self, printed: &Printed, rooms: [usize; 2]) -> Compared<()> {
        let (code, line) = (printed.code(), printed.line());
        let mut outputs = rooms.map(|room| self.garbage(room));
        let written = self.compare.line(&code, &mut outputs[0])?;
        demand_fit(written, line.len(), rooms[0], &code)?;
        let written = self.compare.unline(&line, &mut outputs[1])?;
        demand_fit(written, code.len(), rooms[1], &line)
    }

    /// A good code and its line into outputs that just fit and just don't.
    fn line_into_all_rooms(&mut self, printed: &Printed) -> Compared<()> {
        let needed = [printed.line().len(), printed.code().len()];
        for rooms in [needed, needed.map(|length| length - 1), needed.map(|length| length + 1), [0, 0]] {
            self.line_into(printed, rooms)?;
        }
        Ok(())
    }

    /// Payloads around the longest, of fields that are longer in a line and of such that are not.
    pub(super) fn lines_at_the_limits(&mut self) -> Compared<()> {
        let longest_field = sample::LONGEST_FIELD;
        for lengths in [[0, 0], [5, 10], [8, 8], [6, 126], [126, 6], [longest_field, 0], [0, longest_field]] {
            for payload in sample::PAYLOAD_EDGES {
                let printed = sample::printed(&self.random, lengths, payload);
                self.line_at_the_limit(&printed)?;
            }
        }
        let mut printed = sample::printed(&self.random, [126, 6], LONGEST_PAYLOAD);
        printed.parts[SIGNED] = self.garbage(64);
        let longest = self.good_line(&printed)?.len();
        self.line_into_all_rooms(&printed)?;
        demand(longest == LONGEST_ANY_LINE, "the longest line is reached", &printed.code())
    }

    fn line_at_the_limit(&mut self, printed: &Printed) -> Compared<()> {
        if printed.payload().len() > LONGEST_PAYLOAD {
            self.code_refused(&printed.code(), 24)?;
            return self.line_refused(&printed.line());
        }
        self.good_line(printed)?;
        Ok(())
    }

    /// Counter fields and chain fields of every length that a payload has room for.
    pub(super) fn lines_of_every_length(&mut self) -> Compared<()> {
        for one in 0..=sample::LONGEST_FIELD {
            let other = self.random.below(sample::longest_beside(one) + 1);
            for lengths in [[one, other], [other, one]] {
                let payload = self.random.below(LONGEST_PAYLOAD + 1);
                let printed = sample::printed(&self.random, lengths, payload);
                self.good_line(&printed)?;
            }
        }
        Ok(())
    }

    // ---- errors

    /// The code gets this number, be there room or not.
    fn code_refused(&mut self, code: &[u8], number: u32) -> Compared<()> {
        let mut output = vec![0x5a; self.random.pick(&[0, LONGEST_ANY_LINE])];
        let written = self.compare.line(code, &mut output)?;
        demand(written.number == number, "a wrong code gets its number", code)
    }

    /// The line gets 27, be there room or not.
    fn line_refused(&mut self, line: &[u8]) -> Compared<()> {
        let mut output = vec![0x5a; self.random.pick(&[0, LONGEST_CODE])];
        let written = self.compare.unline(line, &mut output)?;
        demand(written.number == 27, "a wrong line gets 27", line)
    }

    /// The errors of a student in the spelling of a code and of a line.
    pub(super) fn line_errors(&mut self) -> Compared<()> {
        // lengths with padding in both spellings
        let lengths = [(); 2].map(|()| self.random.pick(&[1, 2, 4, 7, 8, 11, 13, 14]));
        let mut printed = sample::printed(&self.random, lengths, 60 + self.random.below(60));
        printed.parts[SIGNED] = self.garbage(64);
        self.good_line(&printed)?;
        self.line_into_all_rooms(&printed)?;
        self.misspelled_texts(&printed)?;
        self.other_texts(&printed)?;
        self.other_fields(&printed)?;
        self.other_signatures(&printed)?;
        self.two_errors(&printed)
    }

    /// Each of the three texts misspelled.
    fn misspelled_texts(&mut self, printed: &Printed) -> Compared<()> {
        let (code, line) = (printed.code_texts(), printed.line_texts());
        for place in SPELLED {
            let number = if place == SIGNED { 24 } else { 26 };
            for text in BASE64.misspellings(&code[place]) {
                self.code_refused(&with_text(&code, place, &text), number)?;
            }
            for text in BASE32.misspellings(&line[place]) {
                self.line_refused(&with_text(&line, place, &text))?;
            }
        }
        Ok(())
    }

    /// Each of the three left in the other spelling, which may be a good text of this one, or left empty; and all three.
    fn other_texts(&mut self, printed: &Printed) -> Compared<()> {
        let (code, line) = (printed.code_texts(), printed.line_texts());
        for place in SPELLED {
            self.lined(&with_text(&code, place, &line[place]))?;
            self.unlined(&with_text(&line, place, &code[place]))?;
            self.lined(&with_text(&code, place, b""))?;
            self.unlined(&with_text(&line, place, b""))?;
        }
        self.code_refused(&joined(&line), 24)?;
        self.line_refused(&joined(&code))
    }

    /// Eleven fields and thirteen, another start, and nothing at all.
    fn other_fields(&mut self, printed: &Printed) -> Compared<()> {
        let (code, line) = (printed.code_texts(), printed.line_texts());
        for other in other_counts(&code) {
            self.code_refused(&other, 26)?;
        }
        for other in other_counts(&line) {
            self.line_refused(&other)?;
        }
        for start in [&b"R2-"[..], b"r1-", b"R1", b""] {
            self.code_refused(&with_text(&code, 0, start), 24)?;
            self.line_refused(&with_text(&line, 0, start))?;
        }
        self.code_refused(b"", 24)?;
        self.line_refused(b"")
    }

    /// The text of a failed device, and bytes that are no signature.
    fn other_signatures(&mut self, printed: &Printed) -> Compared<()> {
        let mut other = printed.clone();
        other.parts[SIGNED] = FAILURE.to_vec();
        self.good_line(&other)?;
        for signature in wrong_signatures(&self.random) {
            other.parts[SIGNED] = signature;
            self.code_refused(&other.code(), 24)?;
            self.line_refused(&other.line())?;
        }
        Ok(())
    }

    /// 24 comes before 26.
    fn two_errors(&mut self, printed: &Printed) -> Compared<()> {
        let mut longer = printed.clone();
        longer.parts[0].resize(LONGEST_PAYLOAD, b'x');
        let mut unsigned = printed.clone();
        unsigned.parts[SIGNED].pop();
        for other in [longer, unsigned] {
            let code = other.code_texts();
            let counts = other_counts(&code);
            self.code_refused(&counts[self.random.below(counts.len())], 24)?;
            for place in [COUNTER, CHAIN] {
                let wrong = [&code[place], &b"="[..]].concat();
                self.code_refused(&with_text(&code, place, &wrong), 24)?;
            }
        }
        Ok(())
    }

    // ---- any codes and lines

    /// Line of a code into outputs of some lengths, and back where it is not refused.
    fn lined(&mut self, code: &[u8]) -> Compared<()> {
        let line = self.compare.line_and_back(code)?;
        let room = self.room(line.map_or(LONGEST_ANY_LINE, |line| line.len()));
        let mut output = self.garbage(room);
        self.compare.line(code, &mut output)?;
        Ok(())
    }

    /// Unline of a line, likewise.
    fn unlined(&mut self, line: &[u8]) -> Compared<()> {
        let code = self.compare.unline_and_back(line)?;
        let room = self.room(code.map_or(LONGEST_CODE, |code| code.len()));
        let mut output = self.garbage(room);
        self.compare.unline(line, &mut output)?;
        Ok(())
    }

    /// A code of any fields and its line, as they are and changed; and random texts.
    pub(super) fn free_lines(&mut self) -> Compared<()> {
        if self.random.once_in(6) {
            let text = self.any_text();
            self.lined(&text)?;
            return self.unlined(&text);
        }
        let lengths = sample::field_lengths(&self.random);
        let edge = self.random.pick(&sample::PAYLOAD_EDGES);
        let payload = self.random.pick(&[0, 100, edge, edge, edge, self.random.below(250)]);
        let printed = sample::printed(&self.random, lengths, payload);
        self.line_at_the_limit(&printed)?;
        for _ in 0..3 {
            let code = self.changed(&printed.code_texts(), &printed.line_texts(), &BASE64);
            self.lined(&code)?;
            let line = self.changed(&printed.line_texts(), &printed.code_texts(), &BASE32);
            self.unlined(&line)?;
        }
        Ok(())
    }

    /// Random bytes, or letters and separators.
    fn any_text(&self) -> Vec<u8> {
        let longest = self.random.pick(&[LONGEST_CODE, LONGEST_LINE, LONGEST_ANY_LINE]);
        let length = self.random.pick(&[0, 1, 4, 5, 13, 120, longest, longest + 1, 5000]);
        if self.random.once_in(2) {
            return self.garbage(length);
        }
        let mut text: Vec<u8> = (0..length).map(|_| self.random.pick(b"AQgw27_=R1-\0")).collect();
        if self.random.once_in(2) {
            text.splice(0..0, *b"_R1-");
        }
        text
    }

    /// A code or a line with one thing changed; `other` are the same texts in the other spelling.
    fn changed(&self, texts: &Texts, other: &Texts, base: &Base) -> Vec<u8> {
        let random = &self.random;
        let place = random.pick(&SPELLED);
        let text = &texts[place];
        match random.below(10) {
            // a letter made small, or exchanged for a digit that looks like it
            0 if !text.is_empty() => {
                let at = random.below(text.len());
                let byte = random.pick(&[text[at].to_ascii_lowercase(), b'0', b'1', b'8', b'9', b'=', b'A']);
                with_text(texts, place, &with_byte(text, at, byte))
            }
            1 => {
                let misspellings = base.misspellings(text);
                with_text(texts, place, &misspellings[random.below(misspellings.len())])
            }
            2 => with_text(texts, place, &other[place]),
            // whole groups more, so that the payload or the signature may become too long
            3 => {
                let groups = random.below(30);
                with_text(texts, place, &[&vec![b'A'; groups * base.group], &text[..]].concat())
            }
            // bytes more in another field
            4 => {
                let more = random.below(12);
                with_text(texts, 1, &[&texts[1][..], &vec![b'x'; more]].concat())
            }
            5 => {
                let counts = other_counts(texts);
                counts[random.below(counts.len())].clone()
            }
            // two fields exchanged
            6 => {
                let mut swapped = slices(texts);
                swapped.swap(place, random.below(SIGNED + 1));
                joined(&swapped)
            }
            7 => {
                let mut cut = joined(texts);
                cut.truncate(random.below(cut.len()));
                cut
            }
            _ => {
                let mut text = joined(texts);
                self.damage_bytes(&mut text);
                text
            }
        }
    }

    /// A receipt's code and its line cut at every place, and with a byte changed at every place.
    pub(super) fn lines_with_every_change(&mut self, accepted: &Accepted) -> Compared<()> {
        let (_, form) = self.form_of(accepted);
        let printed = self.printed_of(&form)?;
        let (code, line) = (printed.code(), printed.line());
        for place in 0..code.len() {
            let byte = code[place] ^ 1 << self.random.below(8);
            self.compare.line_and_back(&with_byte(&code, place, byte))?;
            self.compare.line_and_back(&code[..place])?;
        }
        for place in 0..line.len() {
            let byte = line[place] ^ 1 << self.random.below(8);
            self.compare.unline_and_back(&with_byte(&line, place, byte))?;
            self.compare.unline_and_back(&line[..place])?;
        }
        Ok(())
    }
}
