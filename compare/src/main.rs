//! compare [N [SEED]]: about N inputs to the port and to the published Rust, and every character to both; and half as many titles and records to the
//! port and to a reading of document 02's sections, and codes and records to the port and to a reading of its search for codes. Prints how many of each
//! kind were run and differ; ends with status 1 where any does, with 2 where it was not called so. compare cases, compare answers: what
//! tools/replay-data puts together.
mod cases;
mod check;
mod codes;
mod inputs;
#[path = "../../target/compare/notes.rs"]
#[allow(dead_code)]
mod notes;
mod oracle;
mod outlines;
mod port;
mod random;
mod records;
mod searches;
mod sections;
mod sheet;
mod sheets;
mod theme {
    pub const SEMIBOLD: &str = "";
}

use oracle::Block;
use random::Random;
use searches::Search;

/// The least N, so that each kind is run.
const LEAST: usize = 2_000;
/// How many huge pages are run, whatever N is: each place of the cut five times.
const HUGE: usize = 60;

struct Count {
    kind: &'static str,
    run: usize,
    differ: usize,
}

/// Runs one kind n times, with a line of progress every 100,000.
fn run(kind: &'static str, n: usize, seed: u64, mut one: impl FnMut(usize, &mut Random) -> (Vec<u8>, bool)) -> Count {
    let (mut count, mut r) = (Count { kind, run: 0, differ: 0 }, Random::new(seed));
    for k in 0..n {
        let (input, same) = one(k, &mut r);
        count.run += 1;
        if !same {
            count.differ += 1;
            if count.differ <= 3 {
                let start: String = String::from_utf8_lossy(&input).chars().take(200).collect();
                println!("{kind} {k} differs, {} bytes: {start:?}", input.len());
            }
        }
        if count.run % 100_000 == 0 {
            eprintln!("{kind}: {} of {n}", count.run);
        }
    }
    count
}

/// The k-th of all sequences of pieces, the shorter ones first and the empty one before them.
fn short(pieces: &[&str], k: usize) -> Vec<u8> {
    let (mut k, mut length, mut block) = (k, 0, 1);
    while k >= block {
        k -= block;
        length += 1;
        block *= pieces.len();
    }
    inputs::sequence(pieces, k, length)
}

fn checked_page(bytes: Vec<u8>, full: bool, r: &mut Random) -> (Vec<u8>, bool) {
    let same = check::page(&bytes, full, r);
    (bytes, same)
}

fn checked_markdown(bytes: Vec<u8>, r: &mut Random) -> (Vec<u8>, bool) {
    let walked = std::str::from_utf8(&bytes).map_or(true, check::walk);
    let same = walked && check::markdown(&bytes, r);
    (bytes, same)
}

fn checked_sheet(bytes: Vec<u8>) -> (Vec<u8>, bool) {
    let same = check::sheet(&bytes);
    (bytes, same)
}

fn pages(n: usize, seed: u64) -> Vec<Count> {
    vec![
        run("short pages", n / 8, seed, |k, r| checked_page(short(&inputs::SHORT_PAGE, k), false, r)),
        run("random pages", n / 5, seed + 1, |_, r| { let p = inputs::random_page(r); checked_page(p, false, r) }),
        run("damaged pages", n / 16, seed + 2, |_, r| { let p = inputs::random_page(r); let p = inputs::damaged(r, p); checked_page(p, false, r) }),
        run("long pages", n / 400, seed + 3, |_, r| { let p = inputs::long_page(r); checked_page(p, false, r) }),
        run("huge pages", HUGE, seed + 13, |k, r| { let p = inputs::huge_page(r, k); checked_page(p, false, r) }),
        run("pages of many lists", n / 100, seed + 4, |_, r| { let (p, full) = inputs::many_lists(r); checked_page(p, full, r) }),
    ]
}

fn texts(n: usize, seed: u64) -> Vec<Count> {
    vec![
        run("short Markdown", n / 6, seed + 5, |k, r| checked_markdown(short(&inputs::SHORT_MARKDOWN, k), r)),
        run("random Markdown", n / 6, seed + 6, |_, r| { let m = inputs::random_markdown(r); checked_markdown(m, r) }),
        run("damaged Markdown", n / 16, seed + 7, |_, r| { let m = inputs::random_markdown(r); let m = inputs::damaged(r, m); checked_markdown(m, r) }),
        run("long Markdown", n / 2000 + 16, seed + 14, |k, r| { let m = inputs::long_markdown(r, k); checked_markdown(m, r) }),
        run("damaged records", n / 50, seed + 8, |_, r| {
            let markdown = String::from_utf8(inputs::random_markdown(r)).expect("the pieces of inputs.rs are UTF-8; keep them so");
            let blocks = oracle::blocks(&markdown);
            let records = inputs::damaged(r, oracle::records(&blocks));
            let same = check::damaged_records(&records);
            (records, same)
        }),
    ]
}

fn sheets(n: usize, seed: u64) -> Vec<Count> {
    vec![
        run("sheets", n / 8, seed + 9, |_, r| checked_sheet(sheets::random(r).into_bytes())),
        run("damaged sheets", n / 16, seed + 10, |_, r| { let s = sheets::random(r).into_bytes(); checked_sheet(inputs::damaged(r, s)) }),
        run("near sheets", n / 16, seed + 11, |_, r| checked_sheet(sheets::near(r).into_bytes())),
        run("long sheets", n / 2000, seed + 12, |_, r| checked_sheet(sheets::long(r).into_bytes())),
    ]
}

/// Where the two differ, the request is shown that compare/answer takes.
fn checked_section(title: &[u8], records: &[u8]) -> (Vec<u8>, bool) {
    let same = check::section(title, records);
    (if same { Vec::new() } else { outlines::request(title, records) }, same)
}

/// A title for these blocks, looked for in their records.
fn titled(blocks: &[Block], r: &mut Random) -> (Vec<u8>, bool) {
    checked_section(&outlines::title(r, blocks), &oracle::records(blocks))
}

fn sections(n: usize, seed: u64) -> Vec<Count> {
    let titles = outlines::SHORT_TITLES;
    vec![
        run("short sections", n / 5, seed + 15, |k, _| checked_section(titles[k % titles.len()], &short(&outlines::SHORT, k / titles.len()))),
        run("random sections", n / 8, seed + 16, |_, r| titled(&outlines::random(r), r)),
        run("damaged sections", n / 16, seed + 17, |_, r| {
            let blocks = outlines::random(r);
            let title = outlines::title(r, &blocks);
            checked_section(&title, &outlines::broken(r, oracle::records(&blocks)))
        }),
        run("sections of Markdown", n / 16, seed + 18, |_, r| titled(&oracle::blocks(&outlines::markdown(r)), r)),
        run("long sections", n / 2000, seed + 19, |_, r| titled(&outlines::long(r), r)),
    ]
}

fn checked_codes(search: Search) -> (Vec<u8>, bool) {
    let same = check::codes(&search);
    (if same { Vec::new() } else { searches::request(&search) }, same)
}

fn searches(n: usize, seed: u64) -> Vec<Count> {
    let sets = searches::SHORT_CODES;
    vec![
        run("short searches", n / 5, seed + 20, |k, _| checked_codes(searches::of_codes(short(&searches::SHORT, k / sets.len()), sets[k % sets.len()]))),
        run("random searches", n / 8, seed + 21, |_, r| { let blocks = searches::blocks(r); checked_codes(searches::within(r, &blocks)) }),
        run("damaged searches", n / 16, seed + 22, |_, r| { let blocks = searches::blocks(r); checked_codes(searches::broken(r, &blocks)) }),
        run("searches of Markdown", n / 16, seed + 23, |_, r| { let blocks = oracle::blocks(&outlines::markdown(r)); checked_codes(searches::within(r, &blocks)) }),
        run("long searches", n / 2000, seed + 24, |_, r| checked_codes(searches::long(r))),
    ]
}

/// Every character, the surrogates left out: 1,112,064.
fn characters() -> Vec<Count> {
    let mut buffers = check::Buffers::new();
    let every: Vec<char> = (0..=char::MAX as u32).filter_map(char::from_u32).collect();
    vec![run("every character", every.len(), 0, |k, _| {
        let same = check::character(every[k], &mut buffers);
        (every[k].to_string().into_bytes(), same)
    })]
}

fn stop(why: &str) -> ! {
    eprintln!("compare: {why}\nIt is called as compare/run NOTES_RS [N [SEED]]: about N inputs and half as many sections and searches for codes, N {LEAST} at least (10000 where it is left out), by the generator's SEED (1).");
    std::process::exit(2)
}

/// The word at a place, as a number; another where there is none.
fn number(words: &[String], place: usize, otherwise: u64) -> u64 {
    let Some(word) = words.get(place) else { return otherwise };
    word.parse().unwrap_or_else(|_| stop(&format!("{word:?} is not a number; write it in digits, as 10000")))
}

fn main() {
    let words: Vec<String> = std::env::args().skip(1).collect();
    match words.first().map(String::as_str) {
        Some("cases") => return cases::write(),
        Some("answers") => return cases::answers(),
        _ => {}
    }
    let (n, seed) = (number(&words, 0, 10_000) as usize, number(&words, 1, 1));
    if n < LEAST {
        stop(&format!("N is {n}, with which some kinds would not be run; give more"));
    }
    if let Some(word) = words.get(2) {
        stop(&format!("{word:?} is one word too many; leave it out"));
    }
    let counts: Vec<Count> = [pages(n, seed), texts(n, seed), sheets(n, seed), sections(n, seed), searches(n, seed), characters()].into_iter().flatten().collect();
    for count in &counts {
        println!("{:22}{:9} run {:6} differ", count.kind, count.run, count.differ);
    }
    let (run, differ) = counts.iter().fold((0, 0), |(run, differ), count| (run + count.run, differ + count.differ));
    println!("{:22}{run:9} run {differ:6} differ", "in all");
    std::process::exit((differ != 0) as i32);
}
