//! Records, and codes to look for in them.
use crate::codes;
use crate::oracle::{self, Block, Span};
use crate::outlines;
use crate::random::Random;

/// What a search is lent: the records, the bytes of all codes, and the length of each.
pub struct Search {
    pub records: Vec<u8>,
    pub codes: Vec<u8>,
    pub lengths: Vec<usize>,
}

/// Few texts, so that a code is often there, often twice, and often nearly; some have characters of two to four bytes.
const TEXTS: [&str; 14] = ["A", "AB", "ABA", "AAB", "B", "BA", " ", "é", "Aé", "€", "\u{1f680}", "R7", "REF615", "fixed in REF615 and R7"];

/// A few blocks of which all short sequences are run: `A`; `AB` in two spans; `AAB`; `B` behind empty code; an item `é`; a heading without spans; `BA`
/// in three spans, one of them empty; and no block.
pub const SHORT: [&str; 8] = [
    "\x08\x01\0\0\0\x08\x01\0\0\0A", "\x08\x02\0\0\0\x09\x01\0\0\0A\x08\x01\0\0\0B", "\x09\x02\x01\0\0\0\x08\x03\0\0\0AAB", "\x08\x02\0\0\0\x04\x08\x01\0\0\0B",
    "\x0c\x03\u{2022}\x01\0\0\0\x08\x02\0\0\0é", "\x01\x03", "\x08\x03\0\0\0\x0a\x01\0\0\0B\x06\x0c\x01\0\0\0A", "\x10",
];
pub const SHORT_CODES: [&[&[u8]]; 20] = [
    &[], &[b"A"], &[b"B"], &[b"AB"], &[b"BA"], &[b"AAB"], &[b"ABA"], &[b"\xc3"], &[b"\xa9"], &[b"\xc3\xa9"], &[b"A", b"B"], &[b"B", b"A", b"B"], &[b"AB", b"BA"], &[b"A", b"\xa9", b"AAB"],
    &[b"A", b"C"], &[b"A", b"B", b"AB", b"BA", b"AAB", b"A", b"B", b"AB", b"BA", b"AAB", b"A", b"B", b"AB", b"BA", b"AAB", b"B"], &[b"A", b""], &[b"A" as &[u8]; 17],
    &[b"ABABABABABABABABABABABABABABABAB"], &[b"A", b"ABABABABABABABABABABABABABABABABA"],
];

/// The search for these codes.
pub fn of_codes(records: Vec<u8>, codes: &[&[u8]]) -> Search {
    Search { records, codes: codes.concat(), lengths: codes.iter().map(|code| code.len()).collect() }
}

fn span(r: &mut Random, text: &str) -> Span {
    Span { text: text.to_owned(), bold: r.once_in(3), italic: r.once_in(3), code: text.is_empty() || r.once_in(4) }
}

/// A text in spans, parted behind a character once in some times; empty code is put in now and then.
fn spans(r: &mut Random, text: &str, often: usize) -> Vec<Span> {
    let (mut out, mut piece) = (Vec::new(), String::new());
    for c in text.chars() {
        piece.push(c);
        if r.once_in(often) {
            out.push(span(r, &std::mem::take(&mut piece)));
        }
        if r.once_in(40 * often) {
            out.push(span(r, ""));
        }
    }
    if !piece.is_empty() {
        out.push(span(r, &piece));
    }
    out
}

fn block(r: &mut Random, text: &str, often: usize) -> Block {
    let spans = spans(r, text, often);
    match r.below(4) {
        0 => Block::Heading(1 + r.below(3) as u8, spans),
        1 => Block::Item { depth: r.below(3), marker: r.pick(&["\u{2022}", "1.", "123456789."]).to_string(), spans },
        _ => Block::Paragraph(spans),
    }
}

pub fn blocks(r: &mut Random) -> Vec<Block> {
    (0..r.below(10))
        .map(|_| {
            let text: String = (0..r.below(4)).map(|_| *r.pick(&TEXTS)).collect();
            block(r, &text, 3)
        })
        .collect()
}

/// Bytes of one of the texts, cut anywhere; the last text as often as any other.
fn part(r: &mut Random, texts: &[String]) -> Vec<u8> {
    let text = if r.once_in(4) { texts.last() } else { texts.get(r.below(texts.len().max(1))) };
    let bytes = text.map_or(&b"A"[..], |text| text.as_bytes());
    let from = r.below(bytes.len() + 1);
    let most = (bytes.len() - from).min(32);
    let length = if r.once_in(2) { most } else { r.below(most + 1) };
    bytes[from..from + length].to_vec()
}

/// A code for these texts: a part of one, that with a byte more or another byte, the end of one and the start of the next one, or any text. Seldom it is
/// empty or too long.
fn code(r: &mut Random, texts: &[String]) -> Vec<u8> {
    let mut code = part(r, texts);
    match r.below(16) {
        0 => code.push(b'A'),
        1 => code.push(r.next() as u8),
        2 if !code.is_empty() => code[0] = *r.pick(b"AB\xc3\xe2"),
        3 => code.extend(part(r, texts)),
        4 => code = r.pick(&TEXTS).as_bytes().to_vec(),
        5 if texts.len() > 1 => {
            let k = r.below(texts.len() - 1);
            code = texts[k].bytes().chain(texts[k + 1].bytes()).skip(texts[k].len().saturating_sub(2)).take(4).collect();
        }
        _ => {}
    }
    if r.once_in(200) {
        code = b"A".repeat(*r.pick(&[0, 31, 32, 33, 64]));
    } else if code.is_empty() {
        code.push(b'A');
    }
    code.truncate(64);
    code
}

/// How many codes there are: mostly few, now and then none, as many as may be, or one more.
fn count(r: &mut Random) -> usize {
    match r.below(32) {
        0 => 0,
        1..=3 => 16,
        4 => 17,
        5..=8 => 5 + r.below(11),
        _ => 1 + r.below(4),
    }
}

/// Codes for these texts, each once in a while that of one before; some searches have parts of texts only. Now and then a length is not that of its code.
fn codes(r: &mut Random, records: Vec<u8>, texts: &[String]) -> Search {
    let (mut codes, parts): (Vec<Vec<u8>>, bool) = (Vec::new(), r.once_in(3));
    for k in 0..count(r) {
        let code = match r.below(4) {
            0 if k > 0 => codes[r.below(k)].clone(),
            _ if parts => Some(part(r, texts)).filter(|part| !part.is_empty()).unwrap_or(b"A".to_vec()),
            _ => code(r, texts),
        };
        codes.push(code);
    }
    let codes: Vec<&[u8]> = codes.iter().map(Vec::as_slice).collect();
    let mut search = of_codes(records, &codes);
    if r.once_in(32) {
        misstate(r, &mut search);
    }
    search
}

/// Another length, a length that is too great by far, a length more, one less, or bytes behind the codes.
fn misstate(r: &mut Random, search: &mut Search) {
    let k = r.below(search.lengths.len().max(1));
    match (r.below(5), search.lengths.get_mut(k)) {
        (0, Some(length)) => *length += 1,
        (1, Some(length)) => *length = *r.pick(&[0, 33, 1 << 32, usize::MAX, usize::MAX - 31]),
        (2, _) => search.lengths.push(r.below(3)),
        (3, _) => drop(search.lengths.pop()),
        _ => search.codes.push(b'A'),
    }
}

fn texts(blocks: &[Block]) -> Vec<String> {
    blocks.iter().map(codes::joined).collect()
}

/// A search in these blocks.
pub fn within(r: &mut Random, blocks: &[Block]) -> Search {
    codes(r, oracle::records(blocks), &texts(blocks))
}

/// A search in records that are broken somewhere. The codes are of the blocks before that, so the walk often ends there; or of all blocks.
pub fn broken(r: &mut Random, blocks: &[Block]) -> Search {
    if r.once_in(3) {
        let records = outlines::broken(r, oracle::records(blocks));
        return codes(r, records, &texts(blocks));
    }
    let at = r.below(blocks.len() + 1);
    let (before, behind) = blocks.split_at(at);
    let records = [&oracle::records(before)[..], *r.pick(&outlines::BEHIND), &oracle::records(behind)].concat();
    let sought = texts(if r.once_in(3) { blocks } else { before });
    codes(r, records, &sought)
}

/// One code against long runs: some of its letters, and another letter at its front, its end or in it, which may be one that no text has.
fn of_run(r: &mut Random) -> Vec<u8> {
    let mut code = b"a".repeat(if r.once_in(2) { 32 } else { 1 + r.below(32) });
    let (at, other) = (r.below(code.len()), *r.pick(b"bbc"));
    match r.below(5) {
        0 => code[0] = other,
        1 => *code.last_mut().expect("a code has a byte at least") = other,
        2 => code[at] = other,
        _ => {}
    }
    code
}

/// Three blocks with long runs of one letter, in one span or in many, with another letter here and there, and codes of these two letters.
pub fn long(r: &mut Random) -> Search {
    let length = *r.pick(&[32, 255, 255, 255, 4_096, 65_535]);
    let often = if length < 300 || r.once_in(8) { 2 } else { 1_000_000 };
    let blocks: Vec<Block> = (0..3)
        .map(|_| {
            let runs: Vec<String> = (0..1 + r.below(4)).map(|_| "a".repeat((length + r.below(5)) / 2)).collect();
            block(r, &runs.join("b"), often)
        })
        .collect();
    let sought: Vec<Vec<u8>> = (0..1 + r.below(16)).map(|_| of_run(r)).collect();
    of_codes(oracle::records(&blocks), &sought.iter().map(Vec::as_slice).collect::<Vec<_>>())
}

/// Records and codes as compare/answer is asked for them; where the lengths are not those of the codes, which no request can say, with them.
pub fn request(search: &Search) -> Vec<u8> {
    let hex = |bytes: &[u8]| if bytes.is_empty() { "-".to_owned() } else { bytes.iter().map(|b| format!("{b:02x}")).collect() };
    let records = hex(&search.records);
    match codes::divided(&search.codes, &search.lengths) {
        Some(codes) => codes.iter().fold(format!("u10 {records}"), |line, code| format!("{line} {}", hex(code))).into_bytes(),
        None => format!("lengths {:?} of codes {} in {records}", search.lengths, hex(&search.codes)).into_bytes(),
    }
}
