//! The words of a request and of its answer: numbers in decimal, bytes in lower-case hexadecimal, two digits each, `-` where there are none.
use std::io::Write;

const DIGITS: &[u8; 16] = b"0123456789abcdef";
/// The two digits of each byte.
const HEX: [[u8; 2]; 256] = pairs();
/// The value of each digit; 16 for what is none.
const VALUE: [u8; 256] = values();

const fn pairs() -> [[u8; 2]; 256] {
    let (mut table, mut b) = ([[0; 2]; 256], 0);
    while b < 256 {
        table[b] = [DIGITS[b / 16], DIGITS[b % 16]];
        b += 1;
    }
    table
}

const fn values() -> [u8; 256] {
    let (mut table, mut v) = ([16; 256], 0);
    while v < 16 {
        table[DIGITS[v] as usize] = v as u8;
        v += 1;
    }
    table
}

/// The number that a word says; none where it has no digits or anything else, or is too large.
pub fn number(word: &[u8]) -> Option<usize> {
    if word.is_empty() || !word.iter().all(u8::is_ascii_digit) {
        return None;
    }
    word.iter().try_fold(0usize, |n, digit| n.checked_mul(10)?.checked_add((digit - b'0') as usize))
}

/// Puts the bytes that a word says in the place of those that `into` has; none where the word is not of their form.
pub fn bytes(word: &[u8], into: &mut Vec<u8>) -> Option<()> {
    into.clear();
    if word == b"-" {
        return Some(());
    }
    if word.is_empty() || word.len() % 2 != 0 {
        return None;
    }
    let mut seen = 0;
    into.extend(word.chunks_exact(2).map(|pair| {
        let (high, low) = (VALUE[pair[0] as usize], VALUE[pair[1] as usize]);
        seen |= high | low;
        high << 4 | low
    }));
    (seen < 16).then_some(())
}

/// An answer while it is written.
pub struct Answer {
    line: Vec<u8>,
}

impl Answer {
    pub fn new() -> Answer {
        Answer { line: Vec::new() }
    }
    pub fn clear(&mut self) {
        self.line.clear();
    }
    /// The answer and byte 10.
    pub fn ended(&mut self) -> &[u8] {
        self.line.push(b'\n');
        &self.line
    }
    pub fn text(&mut self, text: &str) {
        self.line.extend_from_slice(text.as_bytes());
    }
    pub fn number(&mut self, n: usize) {
        write!(self.line, "{n}").expect("a Vec takes what is written to it");
    }
    pub fn bytes(&mut self, bytes: &[u8]) {
        if bytes.is_empty() {
            return self.text("-");
        }
        let at = self.line.len();
        self.line.resize(at + 2 * bytes.len(), 0);
        for (pair, b) in self.line[at..].chunks_exact_mut(2).zip(bytes) {
            pair.copy_from_slice(&HEX[*b as usize]);
        }
    }
    /// Numbers, with a blank before each but the answer's first.
    pub fn numbers(&mut self, numbers: &[usize]) {
        for n in numbers {
            if !self.line.is_empty() {
                self.text(" ");
            }
            self.number(*n);
        }
    }
}
