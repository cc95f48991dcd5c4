//! A title's section in records of several shapes and growing sizes: the port and the plain Rust of plain.rs.
use crate::inputs::PROSE;
use crate::oracle::{self, Block, Span};
use crate::timing::{calls, least, stop};
use crate::{plain, port, EFFORT};
use std::hint::black_box;

pub const SIZES: [usize; 4] = [1_000, 10_000, 100_000, 1_000_000];
pub const RUSSIAN: &str = "Реле теперь срабатывает, когда ток фазы больше уставки. ";

struct Sought {
    title: String,
    records: Vec<u8>,
}

/// A shape of records, with a title to look for, of about a size.
struct Shape {
    name: &'static str,
    made: fn(usize) -> Sought,
}

const fn shape(name: &'static str, made: fn(usize) -> Sought) -> Shape {
    Shape { name, made }
}

const SHAPES: [Shape; 12] = [
    shape("title first", |size| among(size, &[heading(1, "Title")], &[])),
    shape("title last", |size| among(size, &[], &[heading(1, "Title")])),
    shape("no such title", |size| among(size, &[], &[])),
    shape("last byte differs", |size| sought(&format!("{PROSE}b"), repeated(size, &heading(2, &format!("{PROSE}a"))))),
    shape("one byte longer", |size| sought(PROSE, repeated(size, &heading(2, &format!("{PROSE}a"))))),
    shape("headings of small spans", |size| sought("aaaaaaab", repeated(size, &Block::Heading(2, small(8))))),
    shape("headings without text", |size| sought("Title", repeated(size, &Block::Heading(3, Vec::new())))),
    shape("small paragraphs", |size| sought("Title", repeated(size, &Block::Paragraph(small(1))))),
    shape("heading of many spans", |size| sought(&"a".repeat(size / 6), oracle::records(&[Block::Heading(1, small(size / 6))]))),
    shape("paragraph of empty code", |size| sought("Title", oracle::records(&[Block::Paragraph(vec![Span { code: true, ..Span::default() }; size])]))),
    shape("long paragraph", |size| long(PROSE, size)),
    shape("long Russian paragraph", |size| long(RUSSIAN, size)),
];

fn sought(title: &str, records: Vec<u8>) -> Sought {
    Sought { title: title.to_owned(), records }
}

pub fn plain_span(text: &str) -> Span {
    Span { text: text.to_owned(), ..Span::default() }
}

fn heading(level: u8, text: &str) -> Block {
    Block::Heading(level, vec![plain_span(text)])
}

/// Spans of one letter.
pub fn small(count: usize) -> Vec<Span> {
    vec![plain_span("a"); count]
}

pub fn repeated(size: usize, block: &Block) -> Vec<u8> {
    let record = oracle::records(std::slice::from_ref(block));
    record.repeat((size / record.len()).max(1))
}

fn item(text: &str) -> Block {
    Block::Item { depth: 0, marker: "\u{2022}".to_owned(), spans: vec![plain_span("Faster "), Span { bold: true, ..plain_span(text) }] }
}

/// Sections of a release: a heading, a paragraph and two items each.
pub fn release(size: usize) -> Vec<u8> {
    let unit = oracle::records(&[heading(2, "Fixes in this release"), Block::Paragraph(vec![plain_span(PROSE)]), item("start"), item("trip times")]);
    unit.repeat((size / unit.len()).max(1))
}

/// A release, with blocks before and behind it.
fn among(size: usize, before: &[Block], behind: &[Block]) -> Sought {
    sought("Title", [oracle::records(before), release(size), oracle::records(behind)].concat())
}

fn long(text: &str, size: usize) -> Sought {
    sought("Title", oracle::records(&[heading(1, "Title"), Block::Paragraph(vec![plain_span(&text.repeat((size / text.len()).max(1)))])]))
}

/// Nanoseconds of the port and of the plain Rust, which have to answer the same.
fn measured(name: &str, sought: &Sought) -> (f64, f64) {
    let (records, title) = (&sought.records[..], sought.title.as_bytes());
    let (start, end) = plain::section(records, title).expect("the records are whole, so the plain Rust reads them").unwrap_or((0, 0));
    let found = port::section_at(records, title);
    if (found.number, found.start, found.start + found.length) != (0, start, end) {
        stop(format!("{name}: the port answers {found:?}, the plain Rust {start} to {end}; compare/run finds which is wrong"));
    }
    let port = || {
        black_box(port::section_at(black_box(records), black_box(title)));
    };
    let rust = || {
        black_box(plain::section(black_box(records), black_box(title)));
    };
    least(EFFORT, calls(records), port, rust)
}

/// The rows of all shapes; answers their points.
pub fn rows() -> String {
    let mut points = String::new();
    for shape in &SHAPES {
        for size in SIZES {
            let sought = (shape.made)(size);
            let (port, rust) = measured(shape.name, &sought);
            let (name, bytes) = (shape.name, sought.records.len());
            println!("| {name} | {bytes} | {:.2} | {:.2} | {:.2} |", port / 1000.0, rust / 1000.0, port / rust);
            points.push_str(&format!("section\t{name}\t{bytes}\t{port:.0}\t{rust:.0}\n"));
        }
    }
    points
}
