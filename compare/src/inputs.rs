//! Inputs: short ones exhaustively over an alphabet of pieces, random ones, damaged ones.
use crate::random::Random;

pub const PAGE_PIECES: [&str; 44] = [
    "a", "relay", " ", "  ", "\n", "1", ".", "#", "-", "+", ">", "|", "*", "`", "[", "!", "\\", "é", "€", "\u{a0}", "\u{1f680}", "&lt;", "&amp;", "&#46;", "&#x31;", "&nbsp;", "&#9;", "&", ";", "<p>", "</p>",
    "<h2>", "</h2>", "<ul>", "</ul>", "<ol>", "<li>", "</li>", "<b>", "</em>", "<code>", "<pre>", "<br>", "<!--",
];
const MORE_PAGE_PIECES: [&str; 40] = [
    "</ol>", "</b>", "<em>", "<i>", "</i>", "<strong>", "</strong>", "</code>", "</pre>", "</br>", "-->", "<script>", "</script>", "<style>", "</style>", "<tr>", "</tr>", "<td>", "</td>", "</th>", "<a href=x>", "<H1 x>", "<h7>",
    "< p >", "</ p>", "<//b>", "<p-x>", "<ul/>", "<", ">", "<!-->", "<!", "&#+65;", "&#128;", "&#xd800;", "&#00000065;", "&#000000065;", "&#x10ffff;", "&aaaaaaaaaa;", "\u{3000}",
];
pub const MARKDOWN_PIECES: [&str; 36] = [
    "a", "b c", " ", "  ", "\t", "\n", "\n\n", "# ", "## ", "#", "- ", "* ", "+ ", "1. ", "123456789. ", "1234567890. ", "*", "**", "`", "[", "]", "(", ")", "[x](y)", "![", "!", "\\", "|", " | ", "---", "_", ":", "<!--",
    "-->", "é", "\u{a0}",
];
/// A few pieces for which all short sequences are run.
pub const SHORT_PAGE: [&str; 10] = ["a", " ", "<p>", "</p>", "<ul>", "<li>", "</ul>", "<b>", "1.", "&lt;"];
pub const SHORT_MARKDOWN: [&str; 12] = ["a", " ", "\n", "*", "`", "[", "]", "(", ")", "!", "\\", "- "];

/// The sequence of pieces that a number stands for, and its length in pieces.
pub fn sequence(pieces: &[&str], mut number: usize, length: usize) -> Vec<u8> {
    let mut out = String::new();
    for _ in 0..length {
        out.push_str(pieces[number % pieces.len()]);
        number /= pieces.len();
    }
    out.into_bytes()
}

pub fn random_page(r: &mut Random) -> Vec<u8> {
    let mut out = String::new();
    for _ in 0..r.below(40) {
        out.push_str(if r.once_in(3) { *r.pick(&MORE_PAGE_PIECES) } else { *r.pick(&PAGE_PIECES) });
    }
    out.into_bytes()
}

/// A page whose output comes near 16,000 bytes or 8,000 characters.
pub fn long_page(r: &mut Random) -> Vec<u8> {
    let unit = *r.pick(&["a", "é", "€", "\u{1f680}", "*", "a b ", "<b>x</b>"]);
    let written = unit.replace('*', "\\*").replace("<b>", "**").replace("</b>", "**").len();
    let count = [8_000, 16_000 / unit.len(), 16_000 / written][r.below(3)];
    let mut out = b"<p>".to_vec();
    out.extend(unit.repeat((count + 5 - r.below(10)).max(1)).as_bytes());
    out.extend(b"</p>");
    out.extend(random_page(r));
    out
}

/// A page whose characters stand around the 1,048,576 bytes that are read: the k-th starts them 6 bytes before, or up to 5 after. Now and then the
/// part that is not read is no UTF-8.
pub fn huge_page(r: &mut Random, k: usize) -> Vec<u8> {
    let start = 1_048_570 + k % 12;
    let (before, filler, after) = *r.pick(&[("<!--", b'x', "-->"), ("<!--", b'-', "-->"), ("<b ", b'x', ">"), ("<script>", b'x', "</script>"), ("", b' ', "")]);
    let mut out = before.as_bytes().to_vec();
    out.resize(start - after.len(), filler);
    out.extend(format!("{after}\u{1f680}abcdefgh").as_bytes());
    if r.once_in(8) {
        out.push(0xFF);
    }
    out
}

pub fn random_markdown(r: &mut Random) -> Vec<u8> {
    let mut out = String::new();
    for _ in 0..r.below(60) {
        out.push_str(*r.pick(&MARKDOWN_PIECES));
    }
    out.into_bytes()
}

/// Markdown of 65,530 to 65,545 bytes, each length in turn. The depth of some items is over 255, and now and then the greatest that there is.
pub fn long_markdown(r: &mut Random, k: usize) -> Vec<u8> {
    let length = 65_530 + k % 16;
    if r.once_in(8) {
        return format!("{}- a", " ".repeat(length - 3)).into_bytes();
    }
    let (deep, mut out) = (format!("\n{}- ", " ".repeat(1_000)), String::new());
    while out.len() < length {
        let piece = if r.once_in(200) { &deep } else { *r.pick(&MARKDOWN_PIECES) };
        out.push_str(if out.len() + piece.len() <= length { piece } else { "a" });
    }
    let out = out.into_bytes();
    if r.once_in(8) { damaged(r, out) } else { out }
}

/// A few bytes changed, dropped or put in; often no UTF-8 any more.
pub fn damaged(r: &mut Random, mut bytes: Vec<u8>) -> Vec<u8> {
    for _ in 0..1 + r.below(3) {
        let at = r.below(bytes.len() + 1);
        match r.below(3) {
            0 => bytes.insert(at, r.next() as u8),
            1 if at < bytes.len() => bytes[at] = r.next() as u8,
            _ if at < bytes.len() => drop(bytes.remove(at)),
            _ => {}
        }
    }
    bytes
}

/// A page that opens and closes many lists, and whether a list is opened while 64 are open.
pub fn many_lists(r: &mut Random) -> (Vec<u8>, bool) {
    let (mut out, mut open, mut refused) = (Vec::new(), 0usize, false);
    for _ in 0..70 + r.below(80) {
        if r.once_in(4) {
            out.extend(*r.pick(&[b"</ul>".as_slice(), b"</ol>", b"</UL >"]));
            open = open.saturating_sub(1);
        } else if r.once_in(8) {
            out.extend(*r.pick(&[b"<li>a".as_slice(), b"<!--<ul>-->", b"<script><ul></script>", b" ", b"<p>"]));
        } else {
            out.extend(*r.pick(&[b"<ul>".as_slice(), b"<ol>", b"<OL x>"]));
            refused |= open == 64;
            open += 1;
        }
    }
    (out, refused)
}
