//! The published notes.rs, compiled as it is, and its blocks written as records by document 01.
pub(crate) use crate::notes::{blocks, html_to_markdown, Block, Span};

fn span_record(out: &mut Vec<u8>, span: &Span) {
    let text = !span.text.is_empty();
    out.push(span.bold as u8 | (span.italic as u8) << 1 | (span.code as u8) << 2 | (text as u8) << 3);
    if text {
        out.extend((span.text.len() as u32).to_le_bytes());
        out.extend(span.text.as_bytes());
    }
}

fn block_record(out: &mut Vec<u8>, block: &Block) {
    let (mut map, mut fields) = (0u8, Vec::new());
    let spans = match block {
        Block::Heading(level, spans) => {
            map |= 1;
            fields.push(*level);
            spans
        }
        Block::Paragraph(spans) => spans,
        Block::Item { depth, marker, spans } => {
            map |= 4;
            if *depth != 0 {
                map |= 2;
                fields.extend((*depth as u16).to_le_bytes());
            }
            fields.push(marker.len() as u8);
            fields.extend(marker.as_bytes());
            spans
        }
    };
    if !spans.is_empty() {
        map |= 8;
        fields.extend((spans.len() as u32).to_le_bytes());
    }
    out.push(map);
    out.extend(fields);
    spans.iter().for_each(|span| span_record(out, span));
}

pub(crate) fn records(blocks: &[Block]) -> Vec<u8> {
    let mut out = Vec::new();
    blocks.iter().for_each(|block| block_record(&mut out, block));
    out
}
