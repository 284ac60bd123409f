//! The text that a run prints.

/// Each byte as a pair of lower-case hex digits.
static PAIRS: [[u8; 2]; 256] = {
    let digits = b"0123456789abcdef";
    let mut pairs = [[0; 2]; 256];
    let mut byte = 0;
    while byte < 256 {
        pairs[byte] = [digits[byte >> 4], digits[byte & 15]];
        byte += 1;
    }
    pairs
};

#[derive(Default)]
pub struct Text {
    bytes: Vec<u8>,
}

impl Text {
    pub fn as_bytes(&self) -> &[u8] {
        &self.bytes
    }

    /// A line: its number, a word, and numbers, parted by commas.
    pub fn numbers(&mut self, line: usize, word: &[u8], numbers: &[usize]) {
        self.head(line, word);
        for &number in numbers {
            self.bytes.push(b',');
            self.number(number);
        }
        self.bytes.push(b'\n');
    }

    /// A line: its number, a word, and up to 16 bytes as hex pairs.
    pub fn bytes(&mut self, line: usize, word: &[u8], bytes: &[u8]) {
        self.head(line, word);
        let mut pairs = [[0; 2]; 16];
        for (pair, &byte) in pairs.iter_mut().zip(bytes) {
            *pair = PAIRS[usize::from(byte)];
        }
        self.bytes.push(b',');
        self.bytes
            .extend_from_slice(pairs[..bytes.len()].as_flattened());
        self.bytes.push(b'\n');
    }

    fn head(&mut self, line: usize, word: &[u8]) {
        self.number(line);
        self.bytes.push(b',');
        self.bytes.extend_from_slice(word);
    }

    fn number(&mut self, number: usize) {
        let mut digits = [0; 20];
        let mut at = digits.len();
        let mut rest = number;
        loop {
            at -= 1;
            digits[at] = b'0' + (rest % 10) as u8;
            rest /= 10;
            if rest == 0 {
                break;
            }
        }
        self.bytes.extend_from_slice(&digits[at..]);
    }
}
