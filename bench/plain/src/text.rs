//! Numbers in a text, and the faults of every reader.

pub struct Fault {
    pub number: u8,
    pub layer: u8,
    pub place: usize,
}

pub fn fault<T>(number: u8, layer: u8, place: usize) -> Result<T, Fault> {
    Err(Fault { number, layer, place })
}

pub fn white(byte: u8) -> bool {
    matches!(byte, 9..=13 | 32)
}

const LONGEST_TEXT: usize = 60_000;
const MOST_DIGITS: usize = 6;

/// A number and where it starts, its sign included.
pub struct Numeral {
    pub value: i32,
    pub start: usize,
}

pub struct Text<'a> {
    bytes: &'a [u8],
    at: usize,
}

impl<'a> Text<'a> {
    /// The text behind its heading, which white space must follow.
    pub fn behind(heading: &[u8], bytes: &'a [u8]) -> Result<Self, Fault> {
        if bytes.len() > LONGEST_TEXT {
            return fault(14, 2, LONGEST_TEXT);
        }
        match bytes.strip_prefix(heading) {
            Some([]) => fault(12, 1, bytes.len()),
            Some([next, ..]) if white(*next) => Ok(Text { bytes, at: heading.len() }),
            _ => fault(13, 2, 0),
        }
    }

    fn peek(&self) -> Option<u8> {
        self.bytes.get(self.at).copied()
    }

    fn skip_white(&mut self) {
        while self.peek().is_some_and(white) {
            self.at += 1;
        }
    }

    fn early_end<T>(&self) -> Result<T, Fault> {
        fault(12, 1, self.bytes.len())
    }

    /// The next byte that is not white, and its place.
    pub fn mark(&mut self) -> Result<(u8, usize), Fault> {
        self.skip_white();
        let Some(byte) = self.peek() else { return self.early_end() };
        self.at += 1;
        Ok((byte, self.at - 1))
    }

    pub fn natural(&mut self) -> Result<Numeral, Fault> {
        self.skip_white();
        let start = self.at;
        self.digits(start, 1)
    }

    pub fn signed(&mut self) -> Result<Numeral, Fault> {
        self.skip_white();
        let start = self.at;
        if self.peek() != Some(b'-') {
            return self.digits(start, 1);
        }
        self.at += 1;
        self.digits(start, -1)
    }

    fn digits(&mut self, start: usize, sign: i32) -> Result<Numeral, Fault> {
        let first = self.at;
        let mut value = 0;
        loop {
            match self.peek() {
                Some(digit @ b'0'..=b'9') if self.at - first < MOST_DIGITS => value = 10 * value + i32::from(digit - b'0'),
                Some(b'0'..=b'9') => return fault(11, 1, start),
                Some(byte) if white(byte) && self.at > first => break,
                Some(_) => return fault(10, 1, self.at),
                None if self.at > first => break,
                None => return self.early_end(),
            }
            self.at += 1;
        }
        Ok(Numeral { value: sign * value, start })
    }

    /// Only white space may be left.
    pub fn finish(&mut self) -> Result<(), Fault> {
        self.skip_white();
        match self.peek() {
            None => Ok(()),
            Some(_) => fault(15, 2, self.at),
        }
    }
}
