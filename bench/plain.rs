//! A title's section and the blocks of codes in plain Rust: one walk over the records, each block tested as the walker tests it.
use std::str::from_utf8;

struct Reader<'a> {
    rest: &'a [u8],
}

impl<'a> Reader<'a> {
    fn take(&mut self, n: usize) -> Option<&'a [u8]> {
        let (part, rest) = self.rest.split_at_checked(n)?;
        self.rest = rest;
        Some(part)
    }
    fn byte(&mut self) -> Option<u8> {
        let (first, rest) = self.rest.split_first()?;
        self.rest = rest;
        Some(*first)
    }
    /// Four bytes, of which 0 is none.
    fn number(&mut self) -> Option<usize> {
        let bytes = self.take(4)?.try_into().ok()?;
        Some(u32::from_le_bytes(bytes) as usize).filter(|n| *n > 0)
    }
    fn marker(&mut self) -> Option<()> {
        let n = self.byte()?;
        match self.take(n as usize)? {
            [0xe2, 0x80, 0xa2] => Some(()),
            [digits @ .., b'.'] => ((1..=9).contains(&digits.len()) && digits.iter().all(u8::is_ascii_digit)).then_some(()),
            _ => None,
        }
    }
    /// A span's text.
    fn span(&mut self) -> Option<&'a str> {
        match self.byte()? {
            4..=7 => Some(""),
            8..=15 => {
                let n = self.number()?;
                from_utf8(self.take(n)?).ok()
            }
            _ => None,
        }
    }
    /// A heading's level; 0 for any other block.
    fn level(&mut self, map: u8) -> Option<u8> {
        match map & 7 {
            0 => Some(0),
            1 => self.byte().filter(|level| (1..=3).contains(level)),
            4 => self.marker().map(|()| 0),
            6 => {
                self.take(2).filter(|depth| *depth != [0, 0])?;
                self.marker().map(|()| 0)
            }
            _ => None,
        }
    }
    /// How many spans follow.
    fn count(&mut self, map: u8) -> Option<usize> {
        if map & 8 == 0 { Some(0) } else { self.number() }
    }
    /// A block's level, and whether it is a heading with this title.
    fn block(&mut self, title: &[u8]) -> Option<(u8, bool)> {
        let map = self.byte().filter(|map| *map < 16)?;
        let level = self.level(map)?;
        let mut left = (level > 0).then_some(title);
        for _ in 0..self.count(map)? {
            let text = self.span()?;
            left = left.and_then(|title| title.strip_prefix(text.as_bytes()));
        }
        Some((level, left.is_some_and(<[u8]>::is_empty)))
    }
    /// A block's joined text.
    fn text(&mut self) -> Option<String> {
        let map = self.byte().filter(|map| *map < 16)?;
        self.level(map)?;
        (0..self.count(map)?).map(|_| self.span()).collect()
    }
}

/// Where the section of a title starts and ends, if it is there; none where a block is broken.
pub fn section(records: &[u8], title: &[u8]) -> Option<Option<(usize, usize)>> {
    let (mut reader, mut found, mut end) = (Reader { rest: records }, None, None);
    while !reader.rest.is_empty() {
        let at = records.len() - reader.rest.len();
        let (level, titled) = reader.block(title)?;
        match found {
            None if titled => found = Some((at, level)),
            Some((_, of)) if end.is_none() && (1..=of).contains(&level) => end = Some(at),
            _ => {}
        }
    }
    Some(found.map(|(start, _)| (start, end.unwrap_or(records.len()))))
}

/// How many blocks are read, and for each code the number of the first one that contains it; none where a block that is read is broken.
pub fn find_codes(records: &[u8], codes: &[&str]) -> Option<(usize, Vec<Option<usize>>)> {
    let (mut reader, mut visited, mut found) = (Reader { rest: records }, 0, vec![None; codes.len()]);
    while !reader.rest.is_empty() && found.contains(&None) {
        let text = reader.text()?;
        for (code, number) in codes.iter().zip(&mut found) {
            if number.is_none() && text.contains(code) {
                *number = Some(visited);
            }
        }
        visited += 1;
    }
    Some((visited, found))
}
