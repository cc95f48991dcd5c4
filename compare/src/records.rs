//! A strict reader of records, written from document 01, for damaged ones.
use crate::oracle::{Block, Span};

struct Reader<'a> {
    rest: &'a [u8],
}

impl Reader<'_> {
    fn take(&mut self, n: usize) -> Option<Vec<u8>> {
        let part = self.rest.get(..n)?.to_vec();
        self.rest = &self.rest[n..];
        Some(part)
    }
    fn number(&mut self, n: usize) -> Option<usize> {
        Some(self.take(n)?.iter().rev().fold(0, |v, b| v * 256 + *b as usize))
    }
    fn text(&mut self, length_bytes: usize) -> Option<String> {
        let n = self.number(length_bytes)?;
        String::from_utf8(self.take(n)?).ok().filter(|text| !text.is_empty())
    }
    fn span(&mut self) -> Option<Span> {
        let map = self.number(1)?;
        if map >= 16 || map & 12 == 0 {
            return None;
        }
        let text = if map & 8 != 0 { self.text(4)? } else { String::new() };
        Some(Span { text, bold: map & 1 != 0, italic: map & 2 != 0, code: map & 4 != 0 })
    }
    fn spans(&mut self, present: bool) -> Option<Vec<Span>> {
        if !present {
            return Some(Vec::new());
        }
        let n = self.number(4)?;
        if n == 0 || n > self.rest.len() {
            return None;
        }
        (0..n).map(|_| self.span()).collect()
    }
    fn block(&mut self) -> Option<Block> {
        let map = self.number(1)?;
        match map & 7 {
            _ if map >= 16 => None,
            0 => Some(Block::Paragraph(self.spans(map & 8 != 0)?)),
            1 => {
                let level = self.number(1).filter(|level| (1..=3).contains(level))?;
                Some(Block::Heading(level as u8, self.spans(map & 8 != 0)?))
            }
            4 | 6 => {
                let depth = if map & 2 != 0 { self.number(2).filter(|depth| *depth != 0)? } else { 0 };
                let marker = self.text(1).filter(|marker| is_marker(marker))?;
                Some(Block::Item { depth, marker, spans: self.spans(map & 8 != 0)? })
            }
            _ => None,
        }
    }
}

fn is_marker(marker: &str) -> bool {
    let digits = marker.strip_suffix('.').unwrap_or("");
    marker == "\u{2022}" || (1..=9).contains(&digits.len()) && digits.bytes().all(|b| b.is_ascii_digit())
}

/// The block at an offset and the next offset; none where no well-formed block stands.
pub(crate) fn block(records: &[u8], at: usize) -> Option<(Block, usize)> {
    let mut reader = Reader { rest: records.get(at..)? };
    let block = reader.block()?;
    Some((block, records.len() - reader.rest.len()))
}

/// The span at an offset and the next offset; none where no well-formed span stands.
pub(crate) fn span(records: &[u8], at: usize) -> Option<(Span, usize)> {
    let mut reader = Reader { rest: records.get(at..)? };
    let span = reader.span()?;
    Some((span, records.len() - reader.rest.len()))
}
