//! Document 02's search for codes (U10), written from its words: a lone search for each code, and from these where one walk for all of them ends.
use crate::oracle::{Block, Span};
use crate::records;

/// What there is of the codes: number 10, number 7, or how many blocks were visited and each code's block.
#[derive(Debug, PartialEq)]
pub(crate) enum Answer {
    NotCodes,
    Broken,
    Found { visited: usize, blocks: Vec<Option<usize>> },
}

/// The codes, lent as their bytes one after the other and the length of each; none where the lengths do not add up to the bytes.
pub(crate) fn divided<'a>(bytes: &'a [u8], lengths: &[usize]) -> Option<Vec<&'a [u8]>> {
    let (mut codes, mut rest) = (Vec::new(), bytes);
    for length in lengths {
        let (code, behind) = rest.split_at_checked(*length)?;
        codes.push(code);
        rest = behind;
    }
    rest.is_empty().then_some(codes)
}

/// "Up to 16 codes of 1 to 32 bytes."
fn are_codes(codes: &[&[u8]]) -> bool {
    codes.len() <= 16 && codes.iter().all(|code| (1..=32).contains(&code.len()))
}

pub(crate) fn joined(block: &Block) -> String {
    let (Block::Heading(_, spans) | Block::Paragraph(spans) | Block::Item { spans, .. }) = block;
    spans.iter().map(|span: &Span| span.text.as_str()).collect()
}

/// The text of each block up to the end or a broken one, and whether there is a broken one.
fn texts(records: &[u8]) -> (Vec<String>, bool) {
    let (mut texts, mut at) = (Vec::new(), 0);
    while at != records.len() {
        let Some((block, next)) = records::block(records, at) else { return (texts, true) };
        texts.push(joined(&block));
        at = next;
    }
    (texts, false)
}

/// "The number, from 0, of the first block whose joined span text contains it."
fn lone(texts: &[String], code: &[u8]) -> Option<usize> {
    texts.iter().position(|text| text.as_bytes().windows(code.len()).any(|part| part == code))
}

/// "The walk ends after the block with which every code has its number, otherwise at the end of the records", or where a block is broken.
pub(crate) fn find(records: &[u8], bytes: &[u8], lengths: &[usize]) -> Answer {
    let Some(codes) = divided(bytes, lengths).filter(|codes| are_codes(codes)) else { return Answer::NotCodes };
    let (texts, broken) = texts(records);
    let blocks: Vec<Option<usize>> = codes.iter().map(|code| lone(&texts, code)).collect();
    let every: Option<Vec<usize>> = blocks.iter().map(|block| block.map(|number| number + 1)).collect();
    match every {
        Some(ends) => Answer::Found { visited: ends.into_iter().max().unwrap_or(0), blocks },
        None if broken => Answer::Broken,
        None => Answer::Found { visited: texts.len(), blocks },
    }
}
