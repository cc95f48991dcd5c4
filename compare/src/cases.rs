//! What the replay program is given. Sheets and near-sheets with what document 01 says of them: the reader of sheet.rs says yes or no, and the
//! Rust gives the Markdown and the records. Titles and records with the sections that sections.rs finds. Codes and records with what codes.rs
//! finds. And the Rust's answers to the pages and Markdown texts of tools/replay-data.
use crate::random::Random;
use crate::searches::{self, Search};
use crate::sections::{self, Answer};
use crate::{codes, inputs, oracle, outlines, sheet, sheets};
use std::io::{Read, Write};

fn answer(page: &[u8]) -> Result<Vec<u8>, u32> {
    let text = std::str::from_utf8(page).map_err(|_| 0xFFFF_FF01u32)?;
    let found = sheet::read(text).ok_or(0xFFFF_FF00u32)?;
    let markdown = oracle::html_to_markdown(text);
    let mut out = (found.written.len() as u32).to_le_bytes().to_vec();
    out.extend((found.written.chars().count() as u32).to_le_bytes());
    out.extend(markdown.as_bytes());
    out.extend(oracle::records(&oracle::blocks(&markdown)));
    Ok(out)
}

/// A case as the replay program reads it; the number of a refusal stands in place of the answer's length.
fn case(letter: u8, input: &[u8], answer: Result<Vec<u8>, u32>) -> Vec<u8> {
    let length = answer.as_ref().map_or_else(|number| *number, |bytes| bytes.len() as u32);
    let mut out = vec![letter];
    out.extend((input.len() as u32).to_le_bytes());
    out.extend(length.to_le_bytes());
    out.extend(input);
    out.extend(answer.unwrap_or_default());
    out
}

fn sheet_case(page: &[u8]) -> Vec<u8> {
    case(b'S', page, answer(page))
}

/// The title's length in one byte, the title and the records; the answer is the section, nothing where there is none.
fn section_case(title: &[u8], records: &[u8]) -> Vec<u8> {
    let length = u8::try_from(title.len()).expect("a title of a case has at most 255 bytes; take a shorter one");
    let input = [&[length], title, records].concat();
    let answer = match sections::section(title, records) {
        Answer::Broken => Err(0xFFFF_FF07),
        Answer::Missing => Ok(Vec::new()),
        Answer::Found { start, end, .. } => Ok(records[start..end].to_vec()),
    };
    case(b'T', &input, answer)
}

/// How many codes there are in one byte, the length of each in one byte, how many bytes the codes have in two, the codes and the records; the answer is
/// how many blocks were visited and each code's block in four bytes, FFFFFFFF where it has none.
fn code_case(search: &Search) -> Vec<u8> {
    let byte = |n: usize| u8::try_from(n).expect("a case has at most 255 codes, each of at most 255 bytes; take a shorter one");
    let lengths = search.lengths.iter().map(|n| byte(*n));
    let mut input: Vec<u8> = std::iter::once(byte(search.lengths.len())).chain(lengths).collect();
    input.extend(u16::try_from(search.codes.len()).expect("17 codes of at most 255 bytes fit two bytes").to_le_bytes());
    input.extend([&search.codes[..], &search.records].concat());
    let answer = match codes::find(&search.records, &search.codes, &search.lengths) {
        codes::Answer::NotCodes => Err(0xFFFF_FF0A),
        codes::Answer::Broken => Err(0xFFFF_FF07),
        codes::Answer::Found { visited, blocks } => {
            let numbers = blocks.into_iter().map(|block| block.map_or(u32::MAX, |number| number as u32));
            Ok(std::iter::once(visited as u32).chain(numbers).flat_map(u32::to_le_bytes).collect())
        }
    };
    case(b'C', &input, answer)
}

fn write_sheets(out: &mut Vec<u8>) {
    let mut r = Random::new(1);
    for k in 0..180 {
        let page = match k % 4 {
            0 => sheets::near(&mut r).into_bytes(),
            1 => {
                let page = sheets::random(&mut r).into_bytes();
                inputs::damaged(&mut r, page)
            }
            _ => sheets::random(&mut r).into_bytes(),
        };
        out.extend(sheet_case(&page));
    }
    for _ in 0..2 {
        out.extend(sheet_case(sheets::long(&mut r).as_bytes()));
    }
}

fn write_sections(out: &mut Vec<u8>) {
    let mut r = Random::new(2);
    for k in 0..96 {
        let blocks = if k % 6 == 0 { oracle::blocks(&outlines::markdown(&mut r)) } else { outlines::random(&mut r) };
        let (title, whole) = (outlines::title(&mut r, &blocks), oracle::records(&blocks));
        let records = if k % 6 == 1 { outlines::broken(&mut r, whole) } else { whole };
        out.extend(section_case(&title, &records));
    }
}

/// Each set of short codes in one to four short blocks, and random ones, in whole and in broken records; the replay program reads at most 17 lengths.
fn write_codes(out: &mut Vec<u8>) {
    let mut r = Random::new(3);
    for codes in searches::SHORT_CODES {
        let records = (0..1 + r.below(4)).flat_map(|_| r.pick(&searches::SHORT).bytes()).collect();
        out.extend(code_case(&searches::of_codes(records, codes)));
    }
    let mut left = 76;
    while left > 0 {
        let blocks = if left % 6 == 0 { oracle::blocks(&outlines::markdown(&mut r)) } else { searches::blocks(&mut r) };
        let search = if left % 3 == 0 { searches::broken(&mut r, &blocks) } else { searches::within(&mut r, &blocks) };
        if search.lengths.len() <= 17 && search.lengths.iter().all(|n| *n < 256) {
            out.extend(code_case(&search));
            left -= 1;
        }
    }
}

pub fn write() {
    let mut out = Vec::new();
    write_sheets(&mut out);
    write_sections(&mut out);
    write_codes(&mut out);
    std::io::stdout().write_all(&out).expect("standard output cannot be written; send it to a file");
}

/// Frames on standard input: P or M, four length bytes, a page or a Markdown text. Each is answered by four length bytes and the Markdown or the records.
pub fn answers() {
    let (mut frames, mut out) = (Vec::new(), Vec::new());
    std::io::stdin().read_to_end(&mut frames).expect("standard input cannot be read; give it the frames of tools/replay-data");
    let mut rest = &frames[..];
    while let [kind, a, b, c, d, texts @ ..] = rest {
        let (text, after) = texts.split_at(u32::from_le_bytes([*a, *b, *c, *d]) as usize);
        let text = std::str::from_utf8(text).expect("a frame is not UTF-8, which the Rust never takes; leave it out");
        let answer = match kind {
            b'P' => oracle::html_to_markdown(text).into_bytes(),
            _ => oracle::records(&oracle::blocks(text)),
        };
        out.extend((answer.len() as u32).to_le_bytes());
        out.extend(answer);
        rest = after;
    }
    std::io::stdout().write_all(&out).expect("standard output cannot be written; send it to a file");
}
