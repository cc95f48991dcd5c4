//! One input to both sides. Each function answers whether they agree; both buffers are filled with a pattern first, so that "unchanged" is seen.
use crate::codes;
use crate::oracle::{self, Block, Span};
use crate::port::{self, BlockAt, CodesFound, FirstAt, HereAt, SectionAt, SpanAt, Tested, Written, END, HEADING, ITEM, PARAGRAPH};
use crate::random::Random;
use crate::searches::Search;
use crate::sections::{self, Answer};

const FILL: u8 = 0xA5;
const MAX_HTML: usize = 1_048_576;

fn refused(number: u32) -> Written {
    Written { number, length: 0 }
}

fn is_fill(bytes: &[u8]) -> bool {
    bytes.iter().all(|b| *b == FILL)
}

/// The result after a call: what was written, then the pattern.
fn holds(result: &[u8], written: &[u8]) -> bool {
    result.starts_with(written) && is_fill(&result[written.len()..])
}

/// How many bytes of a page are read.
fn bytes_read(page: &str) -> usize {
    let mut at = page.len().min(MAX_HTML);
    while !page.is_char_boundary(at) {
        at -= 1;
    }
    at
}

/// A page, in buffers that are long enough or one byte short; `full`: a list is opened while 64 are open.
pub fn page(page: &[u8], full: bool, r: &mut Random) -> bool {
    let text = std::str::from_utf8(page);
    // for bytes that are no text, room for as many or no room at all: the number is 1 either way
    let need = text.map_or(if r.once_in(2) { 0 } else { 2 * page.len() + 16_384 }, |text| 2 * bytes_read(text) + 16_384);
    let (short_work, short_result) = (r.once_in(16) && need > 0, r.once_in(16));
    let mut work = vec![FILL; need - short_work as usize + if r.once_in(2) && !short_work { 7 } else { 0 }];
    let mut result = vec![FILL; if short_result { 31_999 } else { 32_000 + r.below(2) }];
    let answer = port::html_to_markdown(page, &mut work, &mut result);
    let Ok(text) = text else {
        return answer == refused(1) && is_fill(&work) && is_fill(&result);
    };
    if short_work || short_result {
        return answer == refused(if short_work { 2 } else { 3 }) && is_fill(&work) && is_fill(&result);
    }
    if full {
        return answer == refused(4) && is_fill(&result);
    }
    let expected = oracle::html_to_markdown(text);
    answer == Written { number: 0, length: expected.len() } && holds(&result, expected.as_bytes())
}

/// A Markdown text, in buffers that are exact, longer, or one byte short.
pub fn markdown(markdown: &[u8], r: &mut Random) -> bool {
    let text = std::str::from_utf8(markdown);
    let records = text.map_or(Vec::new(), |text| oracle::records(&oracle::blocks(text)));
    let short_work = r.once_in(16) && !markdown.is_empty();
    let short_result = r.once_in(4) && !records.is_empty();
    let mut work = vec![FILL; 6 * markdown.len() - short_work as usize];
    let mut result = vec![FILL; if short_result { records.len() - 1 } else { records.len() + r.below(2) * 9 }];
    let answer = port::blocks(markdown, &mut work, &mut result);
    let early = if markdown.len() > 65_536 { 5 } else if text.is_err() { 1 } else if short_work { 2 } else { 0 };
    if early != 0 {
        return answer == refused(early) && is_fill(&work) && is_fill(&result);
    }
    if short_result {
        return answer == refused(6) && result.iter().all(|b| *b == 0);
    }
    answer == Written { number: 0, length: records.len() } && holds(&result, &records)
}

fn span_is(records: &[u8], at: usize, n: usize, span: &Span) -> bool {
    let expected = SpanAt { number: 0, kind: 1, bold: span.bold as u32, italic: span.italic as u32, code: span.code as u32 };
    port::span_at(records, at, n) == expected && port::text_at(records, at, n) == span.text.as_bytes()
}

fn ends_at(records: &[u8], at: usize, n: usize) -> bool {
    port::span_at(records, at, n) == SpanAt { number: 0, kind: END, bold: 0, italic: 0, code: 0 } && port::text_at(records, at, n).is_empty()
}

/// A span that ends with its text, before the next offset.
fn here(span: &Span, next: usize) -> HereAt {
    HereAt { number: 0, bold: span.bold as u32, italic: span.italic as u32, code: span.code as u32, start: next - span.text.len(), length: span.text.len(), next }
}

/// The spans in turn, each by its own offset, up to the next block.
fn in_turn(records: &[u8], at: usize, spans: &[Span], next: usize) -> bool {
    let first = port::first_at(records, at);
    let mut span_at = first.at;
    let same = spans.iter().all(|span| {
        let found = port::here_at(records, span_at);
        span_at = found.next;
        span_at >= span.text.len() && found == here(span, span_at) && records.get(found.start..found.start + found.length) == Some(span.text.as_bytes())
    });
    first.number == 0 && same && span_at == next
}

/// The block at an offset; answers the next offset.
fn block_is(records: &[u8], at: usize, block: &Block) -> Option<usize> {
    let (kind, level, depth, marker, spans) = match block {
        Block::Heading(level, spans) => (HEADING, *level as usize, 0, "", spans),
        Block::Paragraph(spans) => (PARAGRAPH, 0, 0, "", spans),
        Block::Item { depth, marker, spans } => (ITEM, 0, *depth, marker.as_str(), spans),
    };
    let found = port::block_at(records, at);
    let same = found == BlockAt { number: 0, kind, level, depth, count: spans.len(), next: found.next } && port::marker_at(records, at) == marker.as_bytes();
    let spans_same = spans.iter().enumerate().all(|(n, span)| span_is(records, at, n, span));
    (same && spans_same && in_turn(records, at, spans, found.next) && ends_at(records, at, spans.len()) && found.next > at).then_some(found.next)
}

/// Records walked from the start: each block in order, then the end.
fn walks(records: &[u8], blocks: &[Block]) -> bool {
    let mut at = 0;
    for block in blocks {
        let Some(next) = block_is(records, at, block) else { return false };
        at = next;
    }
    at == records.len() && end_is(records, at) && no_block(records, at + 1) && no_span(records, at + 1)
}

/// The records of a Markdown text.
pub fn walk(markdown: &str) -> bool {
    let blocks = oracle::blocks(markdown);
    walks(&oracle::records(&blocks), &blocks)
}

/// A title's section, and the blocks of its part, walked as records of their own. Each slice is lent in a box of its length.
pub fn section(title: &[u8], records: &[u8]) -> bool {
    let (title, records): (Box<[u8]>, Box<[u8]>) = (title.into(), records.into());
    let answer = port::section_at(&records, &title);
    match sections::section(&title, &records) {
        Answer::Broken => answer == SectionAt { number: 7, found: 0, start: 0, length: 0 },
        Answer::Missing => answer == SectionAt { number: 0, found: 0, start: 0, length: 0 },
        Answer::Found { start, end, blocks } => {
            let part: Box<[u8]> = records[start..end].into();
            answer == SectionAt { number: 0, found: 1, start, length: end - start } && walks(&part, &blocks)
        }
    }
}

/// The search for codes. Each slice is lent in a box of its length.
pub fn codes(search: &Search) -> bool {
    let (records, codes): (Box<[u8]>, Box<[u8]>) = (search.records[..].into(), search.codes[..].into());
    let lengths: Box<[usize]> = search.lengths[..].into();
    let answer = port::find_codes(&records, &codes, &lengths);
    let mut expected = CodesFound { number: 0, visited: 0, found: [0; 16], blocks: [0; 16] };
    match codes::find(&records, &codes, &lengths) {
        codes::Answer::NotCodes => expected.number = 10,
        codes::Answer::Broken => expected.number = 7,
        codes::Answer::Found { visited, blocks } => {
            expected.visited = visited;
            for (k, block) in blocks.into_iter().enumerate() {
                (expected.found[k], expected.blocks[k]) = (block.is_some() as u32, block.unwrap_or(0));
            }
        }
    }
    answer == expected
}

/// What the calls answer at the records' length, where no span stands either.
fn end_is(records: &[u8], at: usize) -> bool {
    let end = BlockAt { number: 0, kind: END, level: 0, depth: 0, count: 0, next: 0 };
    port::block_at(records, at) == end && port::marker_at(records, at).is_empty() && ends_at(records, at, 0) && port::first_at(records, at) == FirstAt { number: 0, at: 0 } && no_span(records, at)
}

/// What the calls answer where no block stands.
fn no_block(records: &[u8], at: usize) -> bool {
    port::block_at(records, at) == BlockAt { number: 7, kind: 0, level: 0, depth: 0, count: 0, next: 0 }
        && port::marker_at(records, at).is_empty()
        && port::span_at(records, at, 0) == SpanAt { number: 7, kind: 0, bold: 0, italic: 0, code: 0 }
        && port::text_at(records, at, 0).is_empty()
        && port::first_at(records, at) == FirstAt { number: 7, at: 0 }
}

/// What the call answers where no span stands.
fn no_span(records: &[u8], at: usize) -> bool {
    port::here_at(records, at) == HereAt { number: 7, bold: 0, italic: 0, code: 0, start: 0, length: 0, next: 0 }
}

/// Damaged records at every offset and past the end: a block there, and a span, exactly if a strict reader finds one.
pub fn damaged_records(records: &[u8]) -> bool {
    (0..records.len() + 3).all(|at| {
        let block_same = match crate::records::block(records, at) {
            Some((block, next)) => block_is(records, at, &block) == Some(next),
            None if at == records.len() => end_is(records, at),
            None => no_block(records, at),
        };
        let span_same = match crate::records::span(records, at) {
            Some((span, next)) => port::here_at(records, at) == here(&span, next),
            None => no_span(records, at),
        };
        block_same && span_same
    })
}

/// The sheet test, and for a sheet the whole way from page to records.
pub fn sheet(page: &[u8]) -> bool {
    let answer = port::sheet(page);
    let Ok(text) = std::str::from_utf8(page) else {
        return answer == Tested { number: 1, yes: 0, bytes: 0, characters: 0 };
    };
    let Some(sheet) = crate::sheet::read(text) else {
        return answer == Tested { number: 0, yes: 0, bytes: 0, characters: 0 };
    };
    let mut work = vec![0; (2 * page.len() + 16_384).max(6 * 16_000)];
    let mut result = vec![0; 200_000];
    let converted = port::html_to_markdown(page, &mut work, &mut result);
    let markdown = result[..converted.length].to_vec();
    let read = port::blocks(&markdown, &mut work, &mut result);
    answer == Tested { number: 0, yes: 1, bytes: sheet.written.len(), characters: sheet.written.chars().count() }
        && converted.number == 0
        && markdown == sheet.written.as_bytes()
        && read.number == 0
        && result[..read.length] == oracle::records(&sheet.blocks)
}

/// Buffers that are made once, for the many short inputs of `character`.
pub struct Buffers {
    work: Vec<u8>,
    result: Vec<u8>,
}

impl Buffers {
    pub fn new() -> Self {
        Buffers { work: vec![FILL; 20_000], result: vec![FILL; 32_000] }
    }
    fn markdown(&mut self, page: &str) -> Option<&[u8]> {
        let answer = port::html_to_markdown(page.as_bytes(), &mut self.work, &mut self.result);
        (answer.number == 0).then(|| &self.result[..answer.length])
    }
    fn records(&mut self, markdown: &str) -> Option<&[u8]> {
        let answer = port::blocks(markdown.as_bytes(), &mut self.work, &mut self.result);
        (answer.number == 0).then(|| &self.result[..answer.length])
    }
}

/// The sheet test alone, against the second reading of the grammar.
fn sheet_tested(page: &str) -> bool {
    let (yes, bytes, characters) = crate::sheet::read(page).map_or((0, 0, 0), |sheet| (1, sheet.written.len(), sheet.written.chars().count()));
    port::sheet(page.as_bytes()) == Tested { number: 0, yes, bytes, characters }
}

/// One character wherever its class decides: in a page at a line's start, in a text, as a reference, before a full stop and in a tag's name; in
/// Markdown around an item and as a marker; in a sheet at a line's start and in a text.
pub fn character(c: char, buffers: &mut Buffers) -> bool {
    let page = format!("{c}a{c}b&#{};{c}<a>.<b{c}>d", c as u32);
    let markdown = format!("{c}- a{c}\n{c}. a");
    buffers.markdown(&page) == Some(oracle::html_to_markdown(&page).as_bytes())
        && buffers.records(&markdown) == Some(&oracle::records(&oracle::blocks(&markdown))[..])
        && sheet_tested(&format!("<p>{c}b</p>"))
        && sheet_tested(&format!("<p>a{c}b</p>"))
}
