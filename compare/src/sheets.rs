//! Pages that are sheets, or nearly.
use crate::random::Random;

const WORDS: [&str; 16] = ["a", "Relay", "trips", "x*y", "50", "1.", "é", "€uro", "&lt;", "&amp;b", "&gt;", "&quot;q&quot;", "[c]", "d!", "\\e", "-f"];

fn text(r: &mut Random, letter: bool, code: bool) -> String {
    let mut words = Vec::new();
    for k in 0..1 + r.below(3) {
        let word = if k == 0 && letter { WORDS[r.below(3)] } else { *r.pick(&WORDS) };
        words.push(if code && word.contains(['*', '[', '!', '\\', '`']) { "code" } else { word });
    }
    words.join(" ")
}

fn line(r: &mut Random) -> String {
    let tags = [("", ""), ("<strong>", "</strong>"), ("<em>", "</em>"), ("<strong><em>", "</em></strong>"), ("<code>", "</code>")];
    let (mut out, mut last) = (String::new(), 9);
    let runs = 1 + r.below(4);
    for k in 0..runs {
        let mut style = r.below(5);
        while style == 0 && last == 0 || matches!(style, 2 | 3) && matches!(last, 2 | 3) {
            style = r.below(5);
        }
        let mut words = text(r, k == 0, style == 4);
        if style == 0 && k > 0 && r.once_in(2) {
            words.insert(0, ' ');
        }
        if style == 0 && k + 1 < runs && r.once_in(2) {
            words.push(' ');
        }
        out.push_str(&format!("{}{words}{}", tags[style].0, tags[style].1));
        last = style;
    }
    out
}

fn newline(r: &mut Random) -> &'static str {
    if r.once_in(3) { "\n" } else { "" }
}

fn list(r: &mut Random, left: usize) -> String {
    let name = *r.pick(&["ul", "ol"]);
    let mut out = format!("<{name}>{}", newline(r));
    for _ in 0..1 + r.below(3) {
        out.push_str(&format!("<li>{}", line(r)));
        if left > 1 && r.once_in(3) {
            out.push_str(&format!("{}{}{}", newline(r), list(r, left - 1), newline(r)));
        }
        out.push_str(&format!("</li>{}", newline(r)));
    }
    out + &format!("</{name}>")
}

fn block(r: &mut Random) -> String {
    match r.below(4) {
        0 => {
            let level = 1 + r.below(6);
            format!("<h{level}>{}</h{level}>", line(r))
        }
        1 | 2 => format!("<p>{}</p>", line(r)),
        _ => {
            let levels = if r.once_in(8) { 8 } else { 3 };
            list(r, levels)
        }
    }
}

pub fn random(r: &mut Random) -> String {
    let mut out = newline(r).to_owned();
    for _ in 0..r.below(6) {
        out.push_str(&block(r));
        out.push_str(newline(r));
    }
    out
}

/// A sheet with one piece exchanged for another.
pub fn near(r: &mut Random) -> String {
    let changes = [
        ("</em>", "</em><em>b</em>"), ("<em>", "<strong>a</strong><em>"), ("</li>", "\n</li>"), ("<p>", "<P>"), ("<p>", "<p >"), ("</p>", " </p>"), ("<p>", "<p>1"), ("<p>", "<p> "), ("a", "a  b"), ("&lt;", "<"), ("&amp;", "&"),
        ("<ul>", "<ul>\n\n"), ("<ul>", "<ul><ul>"), ("<li>", "<li></li><li>"), ("</h1>", "</h2>"), ("<code>", "<code>`"), ("<strong>", "<strong> "), ("a", "\u{a0}"), ("a", "\u{85}"), ("a", "&nbsp;"), ("a", "&#97;"), ("</ul>", "</ol>"),
        ("Relay", "relay\u{3000}"), ("</strong>", " </strong>"), ("<ol>", "<ol><li>a<ul><li>a<ul><li>a<ul><li>a<ul><li>a<ul><li>a<ul><li>a<ul><li>a</li></ul></li></ul></li></ul></li></ul></li></ul></li></ul></li></ul></li>"),
    ];
    let (from, to) = *r.pick(&changes);
    let page = random(r);
    let places: Vec<usize> = page.match_indices(from).map(|m| m.0).collect();
    if places.is_empty() {
        return page + to;
    }
    let at = *r.pick(&places);
    format!("{}{to}{}", &page[..at], &page[at + from.len()..])
}

/// A sheet whose written form comes near 16,000 bytes or 8,000 characters.
pub fn long(r: &mut Random) -> String {
    let mut out = String::new();
    let (limit, wide) = if r.once_in(2) { (15_990 + r.below(20), true) } else { (7_990 + r.below(20), false) };
    let mut size = 0;
    while size + 60 < limit {
        out.push_str(if wide { "<p>a€€€€€€€€€€€€€€€€</p>" } else { "<p>aaaaaaaaaaaaaaaaaaaaaaaaaaaaaaaaaaaaaaaaaaaaaaa</p>" });
        size += if wide { 51 } else { 49 };
    }
    out + &format!("<ul><li>{}</li></ul>", "b".repeat((limit - size).saturating_sub(2).max(1)))
}
