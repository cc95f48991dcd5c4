//! Safe calls over the C library: a page to Markdown, Markdown to block records, iterators over the records, their sections, and the blocks that
//! contain type codes.
//! Compile it as a module and link with libcapi.a (`-L native=crates/capi/out -l static=capi`); include/release_notes.h says what each C
//! call does. The C calls keep no state, so the functions here may run on any number of threads at once.
#![allow(dead_code)] // a program seldom needs every call

use std::{error, fmt, str};

/// How many bytes of a page the converter reads.
pub const PAGE_READ_MAX: usize = 1_048_576;
/// The result that the converter asks for; its Markdown is never longer.
pub const RESULT_FOR_PAGE: usize = 32_000;
/// The longest Markdown that `blocks` takes.
pub const MARKDOWN_MAX: usize = 65_536;
/// How many codes `find_codes` takes at most, and the bytes of the longest.
pub const CODES_MAX: usize = 16;
pub const CODE_MAX: usize = 32;

/// Why a call said no, with the number that the C calls have for it.
/// The functions here lend buffers that are long enough, so they never answer `SmallWork`, `SmallResult` and `RecordsTooLong`.
#[derive(Clone, Copy, Debug, PartialEq, Eq, Hash)]
#[repr(u32)]
pub enum Refusal {
    /// The page or the Markdown is not UTF-8.
    NotUtf8 = 1,
    /// The work buffer is too short.
    SmallWork = 2,
    /// The converter's result is under 32,000 bytes.
    SmallResult = 3,
    /// The page opens a list inside 64 open ones.
    TooManyLists = 4,
    /// The Markdown is over 65,536 bytes.
    TooLong = 5,
    /// The records do not fit the result.
    RecordsTooLong = 6,
    /// The offset is past the end of the records, or no well-formed block stands there; of `section`, a block of the records is broken; of
    /// `find_codes`, one that the search comes to.
    NoBlock = 7,
    /// There are over 16 codes, or one of them has no bytes or over 32.
    NotCodes = 10,
}

impl Refusal {
    /// The refusal of a C call's number, where 0 is none.
    fn check(number: u32) -> Result<(), Refusal> {
        match number {
            0 => Ok(()),
            1 => Err(Refusal::NotUtf8),
            2 => Err(Refusal::SmallWork),
            3 => Err(Refusal::SmallResult),
            4 => Err(Refusal::TooManyLists),
            5 => Err(Refusal::TooLong),
            6 => Err(Refusal::RecordsTooLong),
            7 => Err(Refusal::NoBlock),
            10 => Err(Refusal::NotCodes),
            _ => unreachable!("the library has no number {number}"),
        }
    }
}

/// What the user can do, in the words of list_blocks.c; names in capitals are those of release_notes.h.
impl fmt::Display for Refusal {
    fn fmt(&self, f: &mut fmt::Formatter) -> fmt::Result {
        f.write_str(match self {
            Refusal::NotUtf8 => "the input is not UTF-8; convert it first, for example with iconv",
            Refusal::SmallWork => "the work buffer is too short; size it with RN_WORK_FOR_PAGE or RN_WORK_FOR_MARKDOWN",
            Refusal::SmallResult => "the result buffer is too short; give it RN_RESULT_FOR_PAGE bytes",
            Refusal::TooManyLists => "a list stands inside 64 others; close lists that were left open, or nest fewer",
            Refusal::TooLong => "the Markdown is over RN_MARKDOWN_MAX bytes; shorten it",
            Refusal::RecordsTooLong => "the records do not fit; give the result RN_RECORDS_MAX bytes",
            Refusal::NoBlock => "no block stands here, or one is broken; read only what rn_blocks wrote, from 0 and then by next",
            Refusal::NotCodes => "the codes cannot be looked for; give at most 16 of 1 to 32 bytes each, and their lengths",
        })
    }
}

impl error::Error for Refusal {}

mod raw {
    #[repr(C)]
    pub struct Written {
        pub number: u32,
        pub length: usize,
    }
    #[repr(C)]
    pub struct Tested {
        pub number: u32,
        pub yes: u32,
        pub bytes: usize,
        pub characters: usize,
    }
    #[repr(C)]
    pub struct BlockAt {
        pub number: u32,
        pub kind: u32,
        pub level: usize,
        pub depth: usize,
        pub count: usize,
        pub next: usize,
    }
    #[repr(C)]
    pub struct Part {
        pub start: usize,
        pub length: usize,
    }
    #[repr(C)]
    pub struct FirstAt {
        pub number: u32,
        pub at: usize,
    }
    #[repr(C)]
    pub struct HereAt {
        pub number: u32,
        pub bold: u32,
        pub italic: u32,
        pub code: u32,
        pub start: usize,
        pub length: usize,
        pub next: usize,
    }
    #[repr(C)]
    pub struct SectionAt {
        pub number: u32,
        pub found: u32,
        pub start: usize,
        pub length: usize,
    }
    #[repr(C)]
    pub struct CodesFound {
        pub number: u32,
        pub visited: usize,
        pub found: [u32; super::CODES_MAX],
        pub blocks: [usize; super::CODES_MAX],
    }
    extern "C" {
        pub fn rn_html_to_markdown(page: *const u8, page_len: usize, work: *mut u8, work_len: usize, result: *mut u8, result_len: usize) -> Written;
        pub fn rn_blocks(markdown: *const u8, markdown_len: usize, work: *mut u8, work_len: usize, result: *mut u8, result_len: usize) -> Written;
        pub fn rn_sheet(page: *const u8, page_len: usize) -> Tested;
        pub fn rn_block_at(records: *const u8, records_len: usize, at: usize) -> BlockAt;
        pub fn rn_marker_at(records: *const u8, records_len: usize, at: usize) -> Part;
        pub fn rn_first_at(records: *const u8, records_len: usize, at: usize) -> FirstAt;
        pub fn rn_here_at(records: *const u8, records_len: usize, span_at: usize) -> HereAt;
        pub fn rn_section_at(records: *const u8, records_len: usize, title: *const u8, title_len: usize) -> SectionAt;
        pub fn rn_find_codes(records: *const u8, records_len: usize, codes: *const u8, codes_len: usize, lengths: *const usize, lengths_len: usize) -> CodesFound;
    }
}

/// The work bytes for a page of this length.
pub fn work_for_page(page_len: usize) -> usize {
    2 * page_len.min(PAGE_READ_MAX) + 16_384
}

/// A length that no records of this much Markdown exceed; include/release_notes.h says why.
pub fn records_max(markdown_len: usize) -> usize {
    11 * (markdown_len + 1) / 2
}

/// The Markdown of a page. Refuses with `NotUtf8` or `TooManyLists`.
pub fn html_to_markdown(page: &[u8]) -> Result<Vec<u8>, Refusal> {
    let mut work = vec![0; work_for_page(page.len())];
    let mut result = vec![0; RESULT_FOR_PAGE];
    // SAFETY: each pointer goes with the length of its slice, and the three slices are apart.
    let written = unsafe {
        raw::rn_html_to_markdown(page.as_ptr(), page.len(), work.as_mut_ptr(), work.len(), result.as_mut_ptr(), result.len())
    };
    Refusal::check(written.number)?;
    result.truncate(written.length);
    Ok(result)
}

/// The block records of Markdown. Refuses with `TooLong` or `NotUtf8`.
pub fn blocks(markdown: &[u8]) -> Result<Vec<u8>, Refusal> {
    // Longer Markdown is refused before the buffers are looked at.
    let len = markdown.len().min(MARKDOWN_MAX);
    let mut work = vec![0; 6 * len];
    let mut result = vec![0; records_max(len)];
    // SAFETY: each pointer goes with the length of its slice, and the three slices are apart.
    let written = unsafe {
        raw::rn_blocks(markdown.as_ptr(), markdown.len(), work.as_mut_ptr(), work.len(), result.as_mut_ptr(), result.len())
    };
    Refusal::check(written.number)?;
    result.truncate(written.length);
    Ok(result)
}

/// Whether a page is a sheet: the bytes and the characters of its Markdown, or `None`. Refuses with `NotUtf8`.
pub fn sheet(page: &[u8]) -> Result<Option<(usize, usize)>, Refusal> {
    // SAFETY: the pointer goes with the length of its slice.
    let tested = unsafe { raw::rn_sheet(page.as_ptr(), page.len()) };
    Refusal::check(tested.number)?;
    Ok((tested.yes == 1).then_some((tested.bytes, tested.characters)))
}

/// What a block is.
#[derive(Clone, Copy, Debug, PartialEq, Eq)]
pub enum Kind<'a> {
    /// Level 1 to 3.
    Heading { level: usize },
    Paragraph,
    /// A list item. Depth 0 is an outermost list; the marker is U+2022, or 1 to 9 digits and a full stop.
    Item { depth: usize, marker: &'a str },
}

/// A run of text with one emphasis. Only code can be empty.
#[derive(Clone, Copy, Debug, PartialEq, Eq)]
pub struct Span<'a> {
    pub text: &'a str,
    pub bold: bool,
    pub italic: bool,
    pub code: bool,
}

/// A block of lent records.
#[derive(Clone, Copy, Debug)]
pub struct Block<'a> {
    pub kind: Kind<'a>,
    records: &'a [u8],
    at: usize,
    count: usize,
}

impl<'a> Block<'a> {
    /// The block's spans, one after the other.
    pub fn spans(&self) -> Spans<'a> {
        // SAFETY: the pointer goes with the length of its slice.
        let first = unsafe { raw::rn_first_at(self.records.as_ptr(), self.records.len(), self.at) };
        Spans { records: self.records, at: first.at, left: self.count }
    }
}

/// The blocks of records. After a refusal, which bytes that `blocks` wrote never get, it ends.
#[derive(Clone, Debug)]
pub struct Blocks<'a> {
    records: &'a [u8],
    at: usize,
}

/// Walks records, those of `blocks` or any other bytes.
pub fn walk(records: &[u8]) -> Blocks<'_> {
    Blocks { records, at: 0 }
}

impl<'a> Iterator for Blocks<'a> {
    type Item = Result<Block<'a>, Refusal>;

    fn next(&mut self) -> Option<Self::Item> {
        let (records, at) = (self.records, self.at);
        // SAFETY: the pointer goes with the length of its slice.
        let block = unsafe { raw::rn_block_at(records.as_ptr(), records.len(), at) };
        if let Err(refusal) = Refusal::check(block.number) {
            self.at = records.len();
            return Some(Err(refusal));
        }
        let kind = match block.kind {
            0 => return None,
            1 => Kind::Heading { level: block.level },
            2 => Kind::Paragraph,
            3 => Kind::Item { depth: block.depth, marker: marker(records, at) },
            kind => unreachable!("the library has no kind {kind}"),
        };
        self.at = block.next;
        Some(Ok(Block { kind, records, at, count: block.count }))
    }
}

/// The spans of a block, which borrow from the records.
#[derive(Clone, Debug)]
pub struct Spans<'a> {
    records: &'a [u8],
    at: usize,
    left: usize,
}

impl<'a> Iterator for Spans<'a> {
    type Item = Span<'a>;

    fn next(&mut self) -> Option<Span<'a>> {
        self.left = self.left.checked_sub(1)?;
        let records = self.records;
        // SAFETY: the pointer goes with the length of its slice.
        let span = unsafe { raw::rn_here_at(records.as_ptr(), records.len(), self.at) };
        self.at = span.next;
        let text = part(records, raw::Part { start: span.start, length: span.length });
        Some(Span { text, bold: span.bold == 1, italic: span.italic == 1, code: span.code == 1 })
    }

    fn size_hint(&self) -> (usize, Option<usize>) {
        (self.left, Some(self.left))
    }
}

impl ExactSizeIterator for Spans<'_> {}

fn marker(records: &[u8], at: usize) -> &str {
    // SAFETY: the pointer goes with the length of its slice.
    part(records, unsafe { raw::rn_marker_at(records.as_ptr(), records.len(), at) })
}

fn part(records: &[u8], part: raw::Part) -> &str {
    str::from_utf8(&records[part.start..part.start + part.length]).expect("the parts of a well-formed block are UTF-8")
}

/// The first section whose heading has this text: the heading and all blocks up to the next heading of the same or a smaller level, or `None`.
/// It is a part of the records, which `walk` and `section` take as they take the whole. Refuses with `NoBlock` where any block is broken.
pub fn section<'a>(records: &'a [u8], title: &[u8]) -> Result<Option<&'a [u8]>, Refusal> {
    // SAFETY: each pointer goes with the length of its slice.
    let section = unsafe { raw::rn_section_at(records.as_ptr(), records.len(), title.as_ptr(), title.len()) };
    Refusal::check(section.number)?;
    Ok((section.found == 1).then(|| &records[section.start..section.start + section.length]))
}

/// Where codes stand.
#[derive(Clone, Debug, PartialEq, Eq)]
pub struct Found {
    /// How many blocks were read.
    pub visited: usize,
    /// For each code the number, from 0, of the first block whose text contains it.
    pub blocks: Vec<Option<usize>>,
}

/// The first block of each of these codes, in one walk, which ends after the block with which every code is found. A code is bytes, those of its text in
/// UTF-8. Refuses with `NotCodes`, or with `NoBlock` where the walk comes to a broken block.
pub fn find_codes(records: &[u8], codes: &[&[u8]]) -> Result<Found, Refusal> {
    let (bytes, lengths): (Vec<u8>, Vec<usize>) = (codes.concat(), codes.iter().map(|code| code.len()).collect());
    // SAFETY: each pointer goes with the length of its slice.
    let found = unsafe { raw::rn_find_codes(records.as_ptr(), records.len(), bytes.as_ptr(), bytes.len(), lengths.as_ptr(), lengths.len()) };
    Refusal::check(found.number)?;
    let blocks = found.found.iter().zip(found.blocks).map(|(is_found, block)| (*is_found == 1).then_some(block));
    Ok(Found { visited: found.visited, blocks: blocks.take(codes.len()).collect() })
}

#[cfg(test)]
mod tests {
    use super::*;

    fn span(text: &str, emphasis: &str) -> Span<'static> {
        let text = Box::leak(text.to_owned().into_boxed_str());
        Span { text, bold: emphasis.contains('b'), italic: emphasis.contains('i'), code: emphasis.contains('c') }
    }

    /// Kind and spans of each block.
    fn walked(records: &[u8]) -> Vec<(String, Vec<Span<'_>>)> {
        walk(records).map(|block| block.unwrap()).map(|block| (format!("{:?}", block.kind), block.spans().collect())).collect()
    }

    /// Kind and spans of each block of Markdown.
    fn listed(markdown: &str) -> Vec<(String, Vec<Span<'static>>)> {
        walked(Box::leak(blocks(markdown.as_bytes()).unwrap().into_boxed_slice()))
    }

    fn markdown(page: &str) -> String {
        String::from_utf8(html_to_markdown(page.as_bytes()).unwrap()).unwrap()
    }

    #[test]
    fn pages() {
        assert_eq!(markdown(""), "");
        assert_eq!(markdown("&amp;lt;"), "&lt;");
        assert_eq!(markdown("<h5>T</h5>"), "### T");
        assert_eq!(markdown("<p><em>a</em><em>b</em></p>"), "*a**b*");
        assert_eq!(markdown("<h1>T</h1><ul><li>a</li></ul>"), "# T\n\n- a");
        assert_eq!(markdown(&format!("<p>{}</p>", "a".repeat(8_001))), "a".repeat(8_000));
    }

    #[test]
    fn page_longer_than_what_is_read() {
        let mut page = vec![b' '; PAGE_READ_MAX];
        page.extend(b"<p>not read</p>");
        assert_eq!(html_to_markdown(&page), Ok(vec![]));
        page.push(0xff);
        assert_eq!(html_to_markdown(&page), Err(Refusal::NotUtf8));
    }

    #[test]
    fn refusals() {
        assert_eq!(html_to_markdown(b"a\xff"), Err(Refusal::NotUtf8));
        assert_eq!(blocks(b"\xc0\x80"), Err(Refusal::NotUtf8));
        assert_eq!(sheet(b"<p>\xed\xa0\x80</p>"), Err(Refusal::NotUtf8));
        assert!(html_to_markdown("<ul>".repeat(64).as_bytes()).is_ok());
        assert_eq!(html_to_markdown("<ul>".repeat(65).as_bytes()), Err(Refusal::TooManyLists));
        assert!(blocks(&[b'a'; MARKDOWN_MAX]).is_ok());
        assert_eq!(blocks(&[0xff; MARKDOWN_MAX + 1]), Err(Refusal::TooLong));
        for number in (1..=7).chain([10]) {
            let refusal = Refusal::check(number).unwrap_err();
            assert_eq!(refusal as u32, number);
            assert!(include_str!("list_blocks.c").contains(&format!("return \"{refusal}\";")));
        }
    }

    #[test]
    fn records() {
        assert_eq!(blocks(b""), Ok(vec![]));
        assert_eq!(blocks(b"# T").unwrap(), [9, 1, 1, 0, 0, 0, 8, 1, 0, 0, 0, b'T']);
        assert_eq!(blocks(b"``").unwrap(), [8, 1, 0, 0, 0, 4]);
    }

    #[test]
    fn walks() {
        let item = |depth: usize, marker: &str| format!("{:?}", Kind::Item { depth, marker });
        assert_eq!(listed(""), []);
        assert_eq!(listed("`` "), [("Paragraph".to_owned(), vec![span("", "c")])]);
        assert_eq!(listed("|"), [("Paragraph".to_owned(), vec![])]);
        assert_eq!(
            listed("##### A *b***c**\n\n- d\n  12. `e`\n\nf"),
            [
                ("Heading { level: 3 }".to_owned(), vec![span("A ", ""), span("b", "i"), span("c", "b")]),
                (item(0, "\u{2022}"), vec![span("d", "")]),
                (item(1, "12."), vec![span("e", "c")]),
                ("Paragraph".to_owned(), vec![span("f", "")]),
            ]
        );
    }

    #[test]
    fn other_bytes_end_the_walk() {
        for bytes in [&b"\x10"[..], b"\x09\x04", b"\x08\x01\0\0\0\x08\x01\0\0\0\xff", b"\x08\xff\xff\xff\xff\x04"] {
            let mut walk = walk(bytes);
            assert_eq!(walk.next().unwrap().unwrap_err(), Refusal::NoBlock);
            assert!(walk.next().is_none());
        }
    }

    #[test]
    fn sections() {
        let records = blocks(b"before\n\n# A\n\nx\n\n## B\n\n- y\n\n## **C**D\n\n# B").unwrap();
        let all = walked(&records);
        assert_eq!(all.len(), 7);
        for (title, blocks) in [("A", 1..6), ("B", 3..5), ("CD", 5..6)] {
            let part = section(&records, title.as_bytes()).unwrap().unwrap();
            assert_eq!(walked(part), all[blocks], "{title}");
            assert_eq!(section(part, title.as_bytes()), Ok(Some(part)));
        }
        for title in [&b""[..], b"a", b"A ", b"C", b"CDB", b"x", b"before", b"A\xff"] {
            assert_eq!(section(&records, title), Ok(None));
        }
        assert_eq!(section(&[1, 3], b""), Ok(Some(&[1, 3][..])));
        assert_eq!(section(&[], b""), Ok(None));
        for title in ["A", "B", "none"] {
            assert_eq!(section(&records[..records.len() - 1], title.as_bytes()), Err(Refusal::NoBlock));
        }
    }

    fn found(visited: usize, blocks: &[Option<usize>]) -> Result<Found, Refusal> {
        Ok(Found { visited, blocks: blocks.to_vec() })
    }

    #[test]
    fn codes() {
        let records = blocks("# For R7\n\n- R**E**F`615` and R9\n\nR7, R9 \u{b5}\n\nlast".as_bytes()).unwrap();
        assert_eq!(find_codes(&records, &[b"R7"]), found(1, &[Some(0)]));
        assert_eq!(find_codes(&records, &[b"REF615", b"R7", b"REF615"]), found(2, &[Some(1), Some(0), Some(1)]));
        assert_eq!(find_codes(&records, &[b"R9", b"RE615"]), found(4, &[Some(1), None]));
        assert_eq!(find_codes(&records, &[b"\xc2", b"\xb5", b"615 and"]), found(3, &[Some(2), Some(2), Some(1)]));
        // No code goes over the border of two blocks, and case counts.
        assert_eq!(find_codes(&records, &[b"R7R", b"ref615"]), found(4, &[None, None]));
        assert_eq!(find_codes(&[], &[b"R7"]), found(0, &[None]));
        assert_eq!(find_codes(&records, &[&b"R7"[..]; 16]), found(1, &[Some(0); 16]));
    }

    #[test]
    fn codes_that_are_refused() {
        let records = blocks(b"R7\n\nR9").unwrap();
        for codes in [&[&b"R7"[..]; CODES_MAX + 1][..], &[b""], &[b"R7", b""], &[&[b'R'; CODE_MAX + 1]]] {
            assert_eq!(find_codes(&records, codes), Err(Refusal::NotCodes));
            assert_eq!(find_codes(b"\x10", codes), Err(Refusal::NotCodes));
        }
        assert_eq!(find_codes(&records, &[&[b'R'; CODE_MAX]]), found(2, &[None]));
    }

    #[test]
    fn codes_in_broken_records() {
        let broken = [&blocks(b"R7\n\nR9").unwrap()[..], b"\x10"].concat();
        assert_eq!(find_codes(&broken, &[]), found(0, &[]));
        assert_eq!(find_codes(&broken, &[b"R7", b"R9"]), found(2, &[Some(0), Some(1)]));
        assert_eq!(find_codes(&broken, &[b"R7", b"R8"]), Err(Refusal::NoBlock));
        assert_eq!(find_codes(&broken[..broken.len() - 2], &[b"R7"]), found(1, &[Some(0)]));
        assert_eq!(find_codes(&broken[..broken.len() - 2], &[b"R9"]), Err(Refusal::NoBlock));
    }

    type Call = unsafe extern "C" fn(*const u8, usize, *mut u8, usize, *mut u8, usize) -> raw::Written;

    /// Number and length of a call, with work and result of these lengths, all bytes 9 before it.
    fn written(call: Call, input: &[u8], work: usize, result: usize) -> (u32, usize, Vec<u8>, Vec<u8>) {
        let (mut work, mut result) = (vec![9; work], vec![9; result]);
        // SAFETY: each pointer goes with the length of its slice, and the three slices are apart.
        let w = unsafe { call(input.as_ptr(), input.len(), work.as_mut_ptr(), work.len(), result.as_mut_ptr(), result.len()) };
        (w.number, w.length, work, result)
    }

    #[test]
    fn buffers_after_refusals() {
        let lists = "<ul>".repeat(65);
        for (number, page, work, result) in [(1, "\u{ff}", 0, 0), (2, "ab", 16_387, 0), (3, "ab", 16_388, 31_999), (4, &lists, 20_000, 32_000)] {
            let page = if number == 1 { &page.as_bytes()[..1] } else { page.as_bytes() };
            let (n, length, work, result) = written(raw::rn_html_to_markdown, page, work, result);
            assert_eq!((n, length), (number, 0));
            assert!((number == 4 || work.iter().all(|b| *b == 9)) && result.iter().all(|b| *b == 9));
        }
        let long = vec![0xff; MARKDOWN_MAX + 1];
        for (number, text, work, result) in [(5, &long[..], 0, 0), (1, &long[..1], 0, 0), (2, b"ab", 11, 99), (6, b"a\n\nb", 24, 21)] {
            let (n, length, work, result) = written(raw::rn_blocks, text, work, result);
            assert_eq!((n, length), (number, 0));
            assert!((number == 6 || work.iter().all(|b| *b == 9)) && result.iter().all(|b| *b == if number == 6 { 0 } else { 9 }));
        }
    }

    #[test]
    fn success_leaves_the_rest_of_the_result() {
        let (number, length, _, result) = written(raw::rn_html_to_markdown, b"<p>ab</p>", 16_402, 32_000);
        assert_eq!((number, length, &result[..3]), (0, 2, &b"ab\x09"[..]));
        assert!(result[2..].iter().all(|b| *b == 9));
        let (number, length, _, result) = written(raw::rn_blocks, b"a\n\nb", 24, 23);
        assert_eq!((number, length, result[22]), (0, 22, 9));
    }

    #[test]
    fn sheets() {
        let page = "<h1>T \u{e9}</h1>\n<ul><li>a <strong>b</strong><ol><li>c</li></ol></li></ul>";
        let markdown = markdown(page);
        assert_eq!(sheet(page.as_bytes()), Ok(Some((markdown.len(), markdown.chars().count()))));
        assert_eq!(sheet(b"<p><em>a</em><em>b</em></p>"), Ok(None));
    }

    /// Every Markdown of up to 6 of these characters keeps to the bound, and lines of one `#` reach it.
    #[test]
    fn bound_of_the_records() {
        let letters = b"#\n *|-`[a1";
        for len in 0..=6u32 {
            let mut longest = 0;
            for mut i in 0..letters.len().pow(len) {
                let text: Vec<u8> = (0..len).map(|_| (letters[i % letters.len()], i /= letters.len()).0).collect();
                longest = longest.max(blocks(&text).expect("the bound holds").len());
            }
            assert!(longest == records_max(len as usize) || len % 2 == 0);
        }
    }

    /// The longest Markdown of each repeated piece keeps to the bound.
    #[test]
    fn bound_of_long_records() {
        for piece in ["#\n", "a\n\n", "|\n", "|*", "|a\n", "- \n", "- a\n", "1. a\n", "  - a\n", "a*", "``", "`a`", "[a]()", "- a\n b\n", "\u{2022}*"] {
            let text = piece.repeat(MARKDOWN_MAX / piece.len());
            assert!(blocks(text.as_bytes()).is_ok(), "{piece:?}");
            let row = format!("|{}", &text[..text.len() - piece.len()]);
            assert!(blocks(row.as_bytes()).is_ok(), "{piece:?} in a row");
        }
        let most = format!("{}#", "#\n".repeat(MARKDOWN_MAX / 2 - 1));
        assert_eq!(blocks(most.as_bytes()).unwrap().len(), records_max(most.len()));
    }
}
