//! answer: reads requests from standard input, one a line, and writes what the port answers to each, one line. docs/COMPARISON.md has the commands.
//! A line that is none of them is answered `?`. Each request uses the same buffers again, so memory grows with the longest one only.
#[allow(dead_code)]
mod port;
mod protocol;

use protocol::{bytes, number, Answer};
use std::io::{BufRead, BufReader, BufWriter, Result, Write};

/// What the buffers lent to a call hold before it.
const FILL: u8 = 0xaa;
/// No longer buffer is lent.
const LONGEST: usize = 1 << 26;

/// What the calls are lent, to read and to write, and the answer; `sought` has a title, or each code in turn.
struct Driver {
    read: Vec<u8>,
    sought: Vec<u8>,
    codes: Vec<u8>,
    lengths: Vec<usize>,
    work: Vec<u8>,
    result: Vec<u8>,
    answer: Answer,
}

fn fill(buffer: &mut Vec<u8>, length: &[u8]) -> Option<()> {
    let length = number(length).filter(|n| *n <= LONGEST)?;
    buffer.clear();
    buffer.resize(length, FILL);
    Some(())
}

impl Driver {
    fn new() -> Driver {
        Driver { read: Vec::new(), sought: Vec::new(), codes: Vec::new(), lengths: Vec::new(), work: Vec::new(), result: Vec::new(), answer: Answer::new() }
    }

    /// The answer to a request, with byte 10.
    fn answered(&mut self, request: &[u8]) -> &[u8] {
        self.answer.clear();
        if self.answer_to(request).is_none() {
            self.answer.clear();
            self.answer.text("?");
        }
        self.answer.ended()
    }

    /// None where the request is none.
    fn answer_to(&mut self, request: &[u8]) -> Option<()> {
        let words: Vec<&[u8]> = request.split(|b| *b == b' ').collect();
        match words[..] {
            [b"html", edition, work, result, page] => self.html(edition, work, result, page),
            [b"blocks1", work, result, markdown] => self.blocks1(work, result, markdown),
            [b"sheet1", page] => self.sheet1(page),
            [b"walk", records] => self.walk(records),
            [b"u9", title, records] => self.u9(title, records),
            [b"u10", records, ref codes @ ..] => self.u10(records, codes),
            _ => None,
        }
    }

    /// The only edition is 1, and the ampersands that are left are not counted.
    fn html(&mut self, edition: &[u8], work: &[u8], result: &[u8], page: &[u8]) -> Option<()> {
        number(edition).filter(|n| *n == 1)?;
        self.lend(work, result, page)?;
        let written = port::html_to_markdown(&self.read, &mut self.work, &mut self.result);
        self.answer.numbers(&[written.number as usize, written.length, 0]);
        self.show_result();
        Some(())
    }

    fn blocks1(&mut self, work: &[u8], result: &[u8], markdown: &[u8]) -> Option<()> {
        self.lend(work, result, markdown)?;
        let written = port::blocks(&self.read, &mut self.work, &mut self.result);
        self.answer.numbers(&[written.number as usize, written.length]);
        self.show_result();
        Some(())
    }

    fn lend(&mut self, work: &[u8], result: &[u8], read: &[u8]) -> Option<()> {
        fill(&mut self.work, work)?;
        fill(&mut self.result, result)?;
        bytes(read, &mut self.read)
    }

    /// The whole buffer, whatever was written to it.
    fn show_result(&mut self) {
        self.answer.text(" ");
        self.answer.bytes(&self.result);
    }

    fn sheet1(&mut self, page: &[u8]) -> Option<()> {
        bytes(page, &mut self.read)?;
        let tested = port::sheet(&self.read);
        self.answer.numbers(&[tested.number as usize, tested.yes as usize, tested.bytes, tested.characters]);
        Some(())
    }

    /// Each block from offset 0 on; 7 alone where any is broken.
    fn walk(&mut self, records: &[u8]) -> Option<()> {
        bytes(records, &mut self.read)?;
        self.answer.numbers(&[0]);
        let mut at = 0;
        loop {
            let block = port::block_at(&self.read, at);
            if block.number != 0 {
                self.answer.clear();
                self.answer.numbers(&[block.number as usize]);
                return Some(());
            }
            if block.kind == port::END {
                return Some(());
            }
            self.show_block(&block, at);
            at = block.next;
        }
    }

    fn show_block(&mut self, block: &port::BlockAt, at: usize) {
        match block.kind {
            port::HEADING => {
                self.answer.text(" h");
                self.answer.number(block.level);
            }
            port::PARAGRAPH => self.answer.text(" p"),
            port::ITEM => {
                self.answer.text(" i");
                self.answer.number(block.depth);
                self.answer.text(":");
                self.answer.bytes(port::marker_at(&self.read, at));
            }
            kind => panic!("the library gave a block of kind {kind}, which release_notes.h does not have"),
        }
        let mut at = port::first_at(&self.read, at).at;
        for _ in 0..block.count {
            at = self.show_span(at);
        }
    }

    /// A span, with an empty target, and where the next one stands.
    fn show_span(&mut self, at: usize) -> usize {
        let span = port::here_at(&self.read, at);
        assert_eq!(span.number, 0, "the library gave a block whose span at {at} it does not give");
        self.answer.text(",");
        self.answer.number((span.bold + 2 * span.italic + 4 * span.code) as usize);
        self.answer.text(":");
        self.answer.bytes(&self.read[span.start..span.start + span.length]);
        self.answer.text(":-");
        span.next
    }

    fn u9(&mut self, title: &[u8], records: &[u8]) -> Option<()> {
        bytes(title, &mut self.sought)?;
        bytes(records, &mut self.read)?;
        let section = port::section_at(&self.read, &self.sought);
        self.answer.numbers(&[section.number as usize, section.found as usize, section.start, section.start + section.length]);
        Some(())
    }

    /// A word for each code: its block's number or `none`; no words on a refusal.
    fn u10(&mut self, records: &[u8], codes: &[&[u8]]) -> Option<()> {
        bytes(records, &mut self.read)?;
        self.codes.clear();
        self.lengths.clear();
        for code in codes {
            bytes(code, &mut self.sought)?;
            self.codes.extend(&self.sought);
            self.lengths.push(self.sought.len());
        }
        let found = port::find_codes(&self.read, &self.codes, &self.lengths);
        self.answer.numbers(&[found.number as usize, found.visited]);
        for k in 0..if found.number == 0 { codes.len() } else { 0 } {
            match found.found[k] {
                0 => self.answer.text(" none"),
                _ => self.answer.numbers(&[found.blocks[k]]),
            }
        }
        Some(())
    }
}

/// Answers each line of standard input, the last one too where no byte 10 ends it.
fn run() -> Result<()> {
    let mut input = BufReader::with_capacity(1 << 16, std::io::stdin().lock());
    let mut output = BufWriter::with_capacity(1 << 20, std::io::stdout().lock());
    let (mut driver, mut line) = (Driver::new(), Vec::new());
    while input.read_until(b'\n', &mut line)? != 0 {
        output.write_all(driver.answered(line.strip_suffix(b"\n").unwrap_or(&line)))?;
        line.clear();
        // Somebody may wait for this answer before the next request.
        if input.buffer().is_empty() {
            output.flush()?;
        }
    }
    output.flush()
}

fn main() {
    if let Err(why) = run() {
        eprintln!("answer: {why}");
        std::process::exit(1);
    }
}
