//! The settings of a register, and questions 1 to 4 and 32 on them.

/// The number of the first question that is answered by "no".
pub type Number = u32;

/// Two letters A-Z and one digit.
pub fn csp_good(csp: &[u8]) -> bool {
    matches!(csp, [b'A'..=b'Z', b'A'..=b'Z', b'0'..=b'9'])
}

/// 1 to 32 bytes, each 33 to 126, never "_".
pub fn id_good(id: &[u8]) -> bool {
    (1..=32).contains(&id.len()) && id.iter().all(|&byte| (33..=126).contains(&byte) && byte != b'_')
}

/// Is the last byte a digit? Then ID and number after it could be the hash input of another register, too.
pub fn ends_in_digit(id: &[u8]) -> bool {
    matches!(id, [.., b'0'..=b'9'])
}

/// 1 to 32 of 0-9 a-f.
pub fn serial_good(serial: &[u8]) -> bool {
    (1..=32).contains(&serial.len()) && serial.iter().all(|byte| matches!(byte, b'0'..=b'9' | b'a'..=b'f'))
}

pub fn width_good(width: u64) -> bool {
    (5..=8).contains(&width)
}

/// An ID or a serial: 32 bytes of which the first `length` are its own. Any values are possible; `text` asks them.
#[derive(Clone, Copy, Debug, Default, PartialEq, Eq)]
pub struct Name {
    pub bytes: [u8; 32],
    pub length: u64,
}

impl Name {
    /// The name with these bytes, 32 at the most.
    pub fn of(text: &[u8]) -> Self {
        let mut name = Name { bytes: [0; 32], length: text.len() as u64 };
        name.bytes[..text.len()].copy_from_slice(text);
        name
    }

    /// The bytes up to the end; None where the length is over 32 or a byte after the end isn't zero.
    pub fn text(&self) -> Option<&[u8]> {
        let length = usize::try_from(self.length).ok()?;
        let (text, after) = self.bytes.split_at_checked(length)?;
        after.iter().all(|&byte| byte == 0).then_some(text)
    }

    /// The bytes up to the end; all of them where the length is over 32.
    pub fn shown(&self) -> &[u8] {
        &self.bytes[..self.length.min(32) as usize]
    }
}

#[derive(Clone, Copy, Debug, Default, PartialEq, Eq)]
pub struct Settings {
    pub csp: [u8; 3],
    pub id: Name,
    pub serial: Name,
    /// N, the bytes of the counter.
    pub width: u64,
    pub key: [u8; 32],
}

impl Settings {
    /// Questions 1 to 4.
    pub fn good(&self) -> Result<(), Number> {
        self.good_to_open(false)
    }

    /// Questions 1 to 4, and 32 after 2 where other registers share the key.
    pub fn good_to_open(&self, shared: bool) -> Result<(), Number> {
        if !csp_good(&self.csp) {
            return Err(1);
        }
        let Some(id) = self.id.text().filter(|id| id_good(id)) else {
            return Err(2);
        };
        if shared && ends_in_digit(id) {
            return Err(32);
        }
        if !self.serial.text().is_some_and(serial_good) {
            return Err(3);
        }
        if !width_good(self.width) {
            return Err(4);
        }
        Ok(())
    }

    /// The ID of good settings.
    pub fn id(&self) -> &[u8] {
        &self.id.bytes[..self.id.length as usize]
    }

    /// The serial of good settings.
    pub fn serial(&self) -> &[u8] {
        &self.serial.bytes[..self.serial.length as usize]
    }

    /// The length of the head under good settings.
    pub fn head_length(&self) -> usize {
        19 + self.id.length as usize + self.serial.length as usize
    }

    /// Writes the head with this count of receipts; `head` has exactly its length.
    pub fn write_head(&self, receipts: u32, head: &mut [u8]) {
        let mut rest = head;
        for section in [&self.csp[..], self.id(), self.serial()] {
            let (count, after) = rest.split_at_mut(4);
            let (bytes, after) = after.split_at_mut(section.len());
            count.copy_from_slice(&(section.len() as u32).to_be_bytes());
            bytes.copy_from_slice(section);
            rest = after;
        }
        rest.copy_from_slice(&receipts.to_be_bytes());
    }
}
