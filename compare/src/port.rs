//! The port's calls, through the static library.
#[repr(C)]
#[derive(Debug, PartialEq)]
pub struct Written {
    pub number: u32,
    pub length: usize,
}
#[repr(C)]
#[derive(Debug, PartialEq)]
pub struct Tested {
    pub number: u32,
    pub yes: u32,
    pub bytes: usize,
    pub characters: usize,
}
#[repr(C)]
#[derive(Debug, PartialEq)]
pub struct BlockAt {
    pub number: u32,
    pub kind: u32,
    pub level: usize,
    pub depth: usize,
    pub count: usize,
    pub next: usize,
}
#[repr(C)]
#[derive(Debug, PartialEq)]
pub struct SpanAt {
    pub number: u32,
    pub kind: u32,
    pub bold: u32,
    pub italic: u32,
    pub code: u32,
}
#[repr(C)]
#[derive(Debug, PartialEq)]
pub struct Part {
    pub start: usize,
    pub length: usize,
}
#[repr(C)]
#[derive(Debug, PartialEq)]
pub struct FirstAt {
    pub number: u32,
    pub at: usize,
}
#[repr(C)]
#[derive(Debug, PartialEq)]
pub struct HereAt {
    pub number: u32,
    pub bold: u32,
    pub italic: u32,
    pub code: u32,
    pub start: usize,
    pub length: usize,
    pub next: usize,
}
#[repr(C)]
#[derive(Debug, PartialEq)]
pub struct SectionAt {
    pub number: u32,
    pub found: u32,
    pub start: usize,
    pub length: usize,
}
#[repr(C)]
#[derive(Debug, PartialEq)]
pub struct CodesFound {
    pub number: u32,
    pub visited: usize,
    pub found: [u32; 16],
    pub blocks: [usize; 16],
}
pub const END: u32 = 0;
pub const HEADING: u32 = 1;
pub const PARAGRAPH: u32 = 2;
pub const ITEM: u32 = 3;

mod raw {
    use super::*;
    extern "C" {
        pub fn rn_html_to_markdown(page: *const u8, page_len: usize, work: *mut u8, work_len: usize, result: *mut u8, result_len: usize) -> Written;
        pub fn rn_blocks(markdown: *const u8, markdown_len: usize, work: *mut u8, work_len: usize, result: *mut u8, result_len: usize) -> Written;
        pub fn rn_sheet(page: *const u8, page_len: usize) -> Tested;
        pub fn rn_block_at(records: *const u8, len: usize, at: usize) -> BlockAt;
        pub fn rn_span_at(records: *const u8, len: usize, at: usize, n: usize) -> SpanAt;
        pub fn rn_marker_at(records: *const u8, len: usize, at: usize) -> Part;
        pub fn rn_text_at(records: *const u8, len: usize, at: usize, n: usize) -> Part;
        pub fn rn_first_at(records: *const u8, len: usize, at: usize) -> FirstAt;
        pub fn rn_here_at(records: *const u8, len: usize, at: usize) -> HereAt;
        pub fn rn_section_at(records: *const u8, len: usize, title: *const u8, title_len: usize) -> SectionAt;
        pub fn rn_find_codes(records: *const u8, len: usize, codes: *const u8, codes_len: usize, lengths: *const usize, lengths_len: usize) -> CodesFound;
    }
}

pub fn html_to_markdown(page: &[u8], work: &mut [u8], result: &mut [u8]) -> Written {
    unsafe { raw::rn_html_to_markdown(page.as_ptr(), page.len(), work.as_mut_ptr(), work.len(), result.as_mut_ptr(), result.len()) }
}
pub fn blocks(markdown: &[u8], work: &mut [u8], result: &mut [u8]) -> Written {
    unsafe { raw::rn_blocks(markdown.as_ptr(), markdown.len(), work.as_mut_ptr(), work.len(), result.as_mut_ptr(), result.len()) }
}
pub fn sheet(page: &[u8]) -> Tested {
    unsafe { raw::rn_sheet(page.as_ptr(), page.len()) }
}
pub fn block_at(records: &[u8], at: usize) -> BlockAt {
    unsafe { raw::rn_block_at(records.as_ptr(), records.len(), at) }
}
pub fn span_at(records: &[u8], at: usize, n: usize) -> SpanAt {
    unsafe { raw::rn_span_at(records.as_ptr(), records.len(), at, n) }
}
pub fn marker_at(records: &[u8], at: usize) -> &[u8] {
    let part = unsafe { raw::rn_marker_at(records.as_ptr(), records.len(), at) };
    &records[part.start..part.start + part.length]
}
pub fn text_at(records: &[u8], at: usize, n: usize) -> &[u8] {
    let part = unsafe { raw::rn_text_at(records.as_ptr(), records.len(), at, n) };
    &records[part.start..part.start + part.length]
}
pub fn first_at(records: &[u8], at: usize) -> FirstAt {
    unsafe { raw::rn_first_at(records.as_ptr(), records.len(), at) }
}
pub fn here_at(records: &[u8], at: usize) -> HereAt {
    unsafe { raw::rn_here_at(records.as_ptr(), records.len(), at) }
}
pub fn section_at(records: &[u8], title: &[u8]) -> SectionAt {
    unsafe { raw::rn_section_at(records.as_ptr(), records.len(), title.as_ptr(), title.len()) }
}
pub fn find_codes(records: &[u8], codes: &[u8], lengths: &[usize]) -> CodesFound {
    unsafe { raw::rn_find_codes(records.as_ptr(), records.len(), codes.as_ptr(), codes.len(), lengths.as_ptr(), lengths.len()) }
}
