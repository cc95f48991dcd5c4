//! The first block of each of several codes, in records of several shapes and growing sizes: the port and the plain Rust of plain.rs.
use crate::inputs::PROSE;
use crate::oracle::{self, Block, Span};
use crate::sections::{plain_span, release, repeated, small, RUSSIAN, SIZES};
use crate::timing::{calls, least, stop};
use crate::{plain, port, EFFORT};
use std::hint::black_box;

/// Type codes of which no text has one.
const CODES: [&str; 16] = [
    "REF601", "REF610", "REF611", "REF615", "REF620", "REF630", "REM611", "REM615", "REM620", "RET615", "RET620", "RED615", "RED670", "REL650", "REC615", "7SJ8211-5EB36",
];

struct Sought {
    codes: Vec<String>,
    records: Vec<u8>,
}

/// A shape of records, with codes to look for, of about a size.
struct Shape {
    name: &'static str,
    made: fn(usize) -> Sought,
}

const fn shape(name: &'static str, made: fn(usize) -> Sought) -> Shape {
    Shape { name, made }
}

const SHAPES: [Shape; 16] = [
    shape("no codes in a release", |size| sought(&CODES[..0], release(size))),
    shape("one code, nowhere", |size| sought(&CODES[..1], release(size))),
    shape("16 codes, nowhere", |size| sought(&CODES, release(size))),
    shape("16 codes, first block", |size| sought(&CODES, [list(), release(size)].concat())),
    shape("16 codes, last block", |size| sought(&CODES, [release(size), list()].concat())),
    shape("paragraphs without text", |size| sought(&CODES, repeated(size, &Block::Paragraph(Vec::new())))),
    shape("headings without text", |size| sought(&CODES, repeated(size, &Block::Heading(3, Vec::new())))),
    shape("small paragraphs", |size| sought(&CODES, repeated(size, &Block::Paragraph(small(1))))),
    shape("paragraph of empty code", |size| sought(&CODES, oracle::records(&[Block::Paragraph(vec![Span { code: true, ..Span::default() }; size])]))),
    shape("paragraph of small spans", |size| sought(&CODES, oracle::records(&[Block::Paragraph(small(size / 6))]))),
    shape("long paragraph", |size| sought(&CODES, long(PROSE, size))),
    shape("long Russian paragraph", |size| sought(&RUSSIAN_CODES, long(RUSSIAN, size))),
    shape("one letter", |size| sought(&runs(|k| "a".repeat(31 - k) + "b"), long("a", size))),
    shape("one letter, other first", |size| sought(&runs(|k| "b".to_owned() + &"a".repeat(31 - k)), long("a", size))),
    shape("one letter, other in it", |size| sought(&runs(|k| "a".repeat(15) + "b" + &"a".repeat(16 - k)), long("a", size))),
    shape("one letter in small spans", |size| sought(&runs(|k| "a".repeat(31 - k) + "b"), oracle::records(&[Block::Paragraph(small(size / 6))]))),
];

/// Codes that begin as words of the text do.
const RUSSIAN_CODES: [&str; 16] = [
    "Реле-1", "Реле-2", "Реле-3", "токи", "токов", "фазный", "фазовый", "устав", "уставок-2", "больший", "теперьа", "когда-то", "срабатывание", "РЕЛЕ", "ё", "Ток",
];

fn sought<S: AsRef<str>>(codes: &[S], records: Vec<u8>) -> Sought {
    Sought { codes: codes.iter().map(|code| code.as_ref().to_owned()).collect(), records }
}

/// 16 codes, each by its number.
fn runs(of: fn(usize) -> String) -> Vec<String> {
    (0..16).map(of).collect()
}

/// One paragraph with all codes.
fn list() -> Vec<u8> {
    oracle::records(&[Block::Paragraph(vec![plain_span(&CODES.join(", "))])])
}

fn long(text: &str, size: usize) -> Vec<u8> {
    oracle::records(&[Block::Paragraph(vec![plain_span(&text.repeat((size / text.len()).max(1)))])])
}

/// Nanoseconds of the port and of the plain Rust, which have to answer the same.
fn measured(name: &str, sought: &Sought) -> (f64, f64) {
    let (records, codes): (&[u8], Vec<&str>) = (&sought.records, sought.codes.iter().map(String::as_str).collect());
    let (bytes, lengths): (String, Vec<usize>) = (codes.concat(), codes.iter().map(|code| code.len()).collect());
    let (visited, blocks) = plain::find_codes(records, &codes).expect("the records are whole, so the plain Rust reads them");
    let found = port::find_codes(records, bytes.as_bytes(), &lengths);
    let numbers: Vec<Option<usize>> = found.found.iter().zip(found.blocks).map(|(is_found, block)| (*is_found == 1).then_some(block)).take(codes.len()).collect();
    if (found.number, found.visited, &numbers) != (0, visited, &blocks) {
        stop(format!("{name}: the port answers {found:?}, the plain Rust {visited} and {blocks:?}; compare/run finds which is wrong"));
    }
    let port = || {
        black_box(port::find_codes(black_box(records), black_box(bytes.as_bytes()), black_box(&lengths)));
    };
    let rust = || {
        black_box(plain::find_codes(black_box(records), black_box(&codes)));
    };
    least(EFFORT, calls(records), port, rust)
}

/// The rows of all shapes; answers their points.
pub fn rows() -> String {
    let mut points = String::new();
    for shape in &SHAPES {
        for size in SIZES {
            let sought = (shape.made)(size);
            let (port, rust) = measured(shape.name, &sought);
            let (name, bytes) = (shape.name, sought.records.len());
            println!("| {name} | {bytes} | {:.2} | {:.2} | {:.2} | {:.2} |", port / 1000.0, rust / 1000.0, port / rust, port / bytes as f64);
            points.push_str(&format!("codes\t{name}\t{bytes}\t{port:.0}\t{rust:.0}\n"));
        }
    }
    points
}
