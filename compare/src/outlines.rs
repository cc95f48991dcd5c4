//! Records with many headings, and titles to look for in them.
use crate::inputs::{self, MARKDOWN_PIECES};
use crate::oracle::{Block, Span};
use crate::random::Random;

/// Few texts, so that a title is often there and often there twice; some begin others.
const TEXTS: [&str; 12] = ["A", "AB", "ABA", "B", "BA", "a", " ", "A ", "é", "éA", "€", "Fixed faults"];

/// A few blocks of which all short sequences are run: `A` in each level, `AB` in two spans, `B` behind empty code, no span, an item `A`, and no block.
pub const SHORT: [&str; 8] = [
    "\x09\x01\x01\0\0\0\x08\x01\0\0\0A", "\x09\x02\x01\0\0\0\x08\x01\0\0\0A", "\x09\x03\x01\0\0\0\x08\x01\0\0\0A", "\x09\x01\x02\0\0\0\x0a\x01\0\0\0A\x08\x01\0\0\0B",
    "\x09\x02\x02\0\0\0\x04\x08\x01\0\0\0B", "\x01\x03", "\x0c\x03\u{2022}\x01\0\0\0\x08\x01\0\0\0A", "\x10",
];
pub const SHORT_TITLES: [&[u8]; 5] = [b"A", b"AB", b"B", b"", b"A\xff"];

/// What is no block: a map, a level, a count, a span, a marker or a depth that is not allowed, or too few bytes.
pub const BEHIND: [&[u8]; 10] = [
    b"\x10", b"\x09", b"\x01\x04", b"\x08\0\0\0\0", b"\x08\x01\0\0\0", b"\x08\x01\0\0\0\x03", b"\x08\x01\0\0\0\x08\x01\0\0\0\xff", b"\x08\x01\0\0\0\x08\x02\0\0\0a", b"\x04\x01.", b"\x06\0\0\x021.",
];

fn text(r: &mut Random) -> &'static str {
    if r.once_in(8) { "" } else { *r.pick(&TEXTS) }
}

fn span(r: &mut Random, text: &str) -> Span {
    Span { text: text.to_owned(), bold: r.once_in(3), italic: r.once_in(3), code: text.is_empty() || r.once_in(4) }
}

/// A text in spans: it is parted behind a character once in some times, and empty code is put in now and then.
fn spans(r: &mut Random, text: &str, often: usize) -> Vec<Span> {
    let (mut out, mut piece) = (Vec::new(), String::new());
    for c in text.chars() {
        piece.push(c);
        if r.once_in(often) {
            out.push(span(r, &std::mem::take(&mut piece)));
        }
    }
    if !piece.is_empty() {
        out.push(span(r, &piece));
    }
    if r.once_in(6) {
        let at = r.below(out.len() + 1);
        out.insert(at, span(r, ""));
    }
    out
}

fn block(r: &mut Random, spans: Vec<Span>) -> Block {
    match r.below(6) {
        0..=3 => Block::Heading(1 + r.below(3) as u8, spans),
        4 => Block::Paragraph(spans),
        _ => Block::Item { depth: r.below(3), marker: r.pick(&["\u{2022}", "1.", "123456789."]).to_string(), spans },
    }
}

pub fn random(r: &mut Random) -> Vec<Block> {
    (0..r.below(10))
        .map(|_| {
            let text = text(r);
            let spans = spans(r, text, 2);
            block(r, spans)
        })
        .collect()
}

/// Three blocks with texts around 255 and 65,535 bytes, in one span or in many, that differ in their last characters only.
pub fn long(r: &mut Random) -> Vec<Block> {
    let length = *r.pick(&[255, 255, 255, 65_535]) - 2;
    let often = if length < 300 && r.once_in(2) { 2 } else { 1_000_000 };
    (0..3)
        .map(|_| {
            let text = "A".repeat(length + r.below(5)) + text(r);
            let spans = spans(r, &text, often);
            block(r, spans)
        })
        .collect()
}

/// Lines of Markdown, most of them headings.
pub fn markdown(r: &mut Random) -> String {
    let mut out = String::new();
    for _ in 0..r.below(10) {
        out.push_str(*r.pick(&["# ", "# ", "## ", "## ", "### ", "##### ", "- ", "", "\n"]));
        for _ in 0..r.below(4) {
            out.push_str(*r.pick(&MARKDOWN_PIECES));
        }
        out.push('\n');
    }
    out
}

fn joined(block: &Block) -> String {
    let (Block::Heading(_, spans) | Block::Paragraph(spans) | Block::Item { spans, .. }) = block;
    spans.iter().map(|span| span.text.as_str()).collect()
}

/// A title for these blocks: the text of one of them, a byte short, a byte longer, no UTF-8, the texts of two, half of one; or any text.
pub fn title(r: &mut Random, blocks: &[Block]) -> Vec<u8> {
    if blocks.is_empty() || r.once_in(8) {
        return text(r).as_bytes().to_vec();
    }
    let mut title = joined(r.pick(blocks)).into_bytes();
    match r.below(16) {
        0 => drop(title.pop()),
        1 => title.push(b'A'),
        2 => title.push(r.next() as u8 | 0x80),
        3 => title.extend(joined(r.pick(blocks)).bytes()),
        4 => title.truncate(title.len() / 2),
        _ => {}
    }
    title
}

/// Broken behind the last section, cut short by a byte, or damaged anywhere.
pub fn broken(r: &mut Random, mut records: Vec<u8>) -> Vec<u8> {
    match r.below(3) {
        0 => {
            records.extend(SHORT[0].bytes());
            records.extend(*r.pick(&BEHIND));
        }
        1 => drop(records.pop()),
        _ => return inputs::damaged(r, records),
    }
    records
}

/// A title and records as compare/answer is asked for them.
pub fn request(title: &[u8], records: &[u8]) -> Vec<u8> {
    let hex = |bytes: &[u8]| if bytes.is_empty() { "-".to_owned() } else { bytes.iter().map(|b| format!("{b:02x}")).collect() };
    format!("u9 {} {}", hex(title), hex(records)).into_bytes()
}
