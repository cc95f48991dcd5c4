//! Document 02's sections (U9), written from its words: all records are read, the blocks divided into sections, and the first one of a title taken.
use crate::oracle::{Block, Span};
use crate::records;

/// What there is of a title: number 7, no such section, or its place in the records and its blocks.
pub(crate) enum Answer {
    Broken,
    Missing,
    Found { start: usize, end: usize, blocks: Vec<Block> },
}

/// The blocks from one number up to another; the first is the heading, where there is one.
struct Section<'a> {
    heading: Option<&'a [Span]>,
    from: usize,
    to: usize,
}

/// The blocks, and where each one starts and the last one ends; none where any is broken.
fn read(records: &[u8]) -> Option<(Vec<Block>, Vec<usize>)> {
    let (mut blocks, mut places, mut at) = (Vec::new(), vec![0], 0);
    while at != records.len() {
        let (block, next) = records::block(records, at)?;
        blocks.push(block);
        places.push(next);
        at = next;
    }
    Some((blocks, places))
}

/// "A heading and all blocks up to the next heading of the same or a smaller level."
fn headed<'a>(blocks: &'a [Block], from: usize, level: u8, spans: &'a [Span]) -> Section<'a> {
    let mut to = from + 1;
    while to < blocks.len() && !matches!(&blocks[to], Block::Heading(other, _) if *other <= level) {
        to += 1;
    }
    Section { heading: Some(spans), from, to }
}

/// All sections, by the place of their first block. "Blocks before the first heading form a section without one."
fn divided(blocks: &[Block]) -> Vec<Section<'_>> {
    let before = blocks.iter().take_while(|block| !matches!(block, Block::Heading(..))).count();
    let mut all = Vec::new();
    if before > 0 {
        all.push(Section { heading: None, from: 0, to: before });
    }
    for (from, block) in blocks.iter().enumerate() {
        if let Block::Heading(level, spans) = block {
            all.push(headed(blocks, from, *level, spans));
        }
    }
    all
}

fn joined(spans: &[Span]) -> String {
    spans.iter().map(|span| span.text.as_str()).collect()
}

/// "The first section whose heading's joined span text equals" the title.
pub(crate) fn section(title: &[u8], records: &[u8]) -> Answer {
    let Some((blocks, places)) = read(records) else { return Answer::Broken };
    let titled = |section: &Section| section.heading.is_some_and(|spans| joined(spans).as_bytes() == title);
    match divided(&blocks).into_iter().find(titled) {
        Some(Section { from, to, .. }) => Answer::Found { start: places[from], end: places[to], blocks: blocks[from..to].to_vec() },
        None => Answer::Missing,
    }
}
