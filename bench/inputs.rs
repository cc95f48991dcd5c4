//! What is timed: eight inputs of one size each, and series that repeat a piece to growing sizes.
use crate::random::Random;

#[derive(Clone, Copy, PartialEq)]
pub enum Kind {
    Page,
    Markdown,
}

pub struct Input {
    pub name: &'static str,
    pub kind: Kind,
    pub bytes: Vec<u8>,
}

/// A start, then a unit as often as fits a size.
pub struct Series {
    pub name: &'static str,
    pub kind: Kind,
    pub start: &'static str,
    pub unit: &'static str,
}

impl Series {
    pub fn of_size(&self, size: usize) -> Vec<u8> {
        (self.start.to_string() + &self.unit.repeat((size / self.unit.len()).max(1))).into_bytes()
    }
}

const fn page(name: &'static str, unit: &'static str) -> Series {
    Series { name, kind: Kind::Page, start: "", unit }
}

const fn markdown(name: &'static str, unit: &'static str) -> Series {
    Series { name, kind: Kind::Markdown, start: "", unit }
}

macro_rules! eight {
    ($s:expr) => {
        concat!($s, $s, $s, $s, $s, $s, $s, $s)
    };
}

pub const PROSE: &str = "The relay now trips when the phase current exceeds its pickup for longer than the curve allows, so a station keeps its settings. ";
const RELEASE: &str = "<h2 dir=\"auto\">What&#39;s Changed</h2>\n<ul dir=\"auto\">\n<li>Fix the <code>TMS</code> range by <a class=\"user-mention\" href=\"https://example.org/u/7\">@dev7</a> in <a href=\"https://example.org/p/7\">#7</a></li>\n<li>Faster <strong>start</strong></li>\n</ul>\n<p dir=\"auto\">For <em>all</em> models &amp; sizes.</p>\n";
const LISTS: &str = "<ol>\n<li>one <strong>two</strong>\n<ul>\n<li>three</li>\n<li>four</li>\n</ul>\n</li>\n</ol>\n";
/// 64 lists open at once, as many as may be.
const DEEP: &str = concat!(eight!(eight!("<ul><li>a")), eight!(eight!("</ul>")));
const MARKDOWN: &str = "## Fixes in this release\n\n- The relay **now** keeps its `TMS` setting [as before](https://example.org/7)\nText of *some* length that goes on and on in a line with [a link](u).\n\n";

pub const SERIES: [Series; 46] = [
    page("release page", RELEASE),
    page("plain text", PROSE),
    page("letters and spaces", "a "),
    page("lists", LISTS),
    page("deep lists", DEEP),
    page("bold letters", "<b>x</b>"),
    page("references", "&amp;"),
    page("ampersands", "&"),
    page("stars", "*"),
    page("angle brackets", "<"),
    page("comments", "<!-- a -->"),
    Series { name: "open comment", kind: Kind::Page, start: "<!--", unit: PROSE },
    Series { name: "open comment of hyphens", kind: Kind::Page, start: "<!--", unit: "-" },
    page("open tag of e acute", "<é"),
    Series { name: "pre with spaces", kind: Kind::Page, start: "<pre>", unit: "a   " },
    page("line feeds", "\n"),
    page("ideographic spaces", "\u{3000}"),
    page("line separators", "\u{2028}"),
    page("no-break spaces", " \u{a0}"),
    page("commas", ", "),
    page("e acute", "é"),
    page("e acute and letters", "aéb"),
    page("euro signs", "€"),
    page("rockets", "🚀"),
    page("Cyrillic", "Реле теперь срабатывает, когда ток фазы больше уставки. "),
    markdown("prose", MARKDOWN),
    markdown("open brackets", "["),
    markdown("open links", "[]("),
    markdown("open images", "!["),
    markdown("links", "[a](b)"),
    markdown("backticks", "`a"),
    markdown("italic letters", "*a*"),
    markdown("pairs of stars", "**"),
    markdown("escaped stars", "\\*"),
    markdown("table rows", "|a|b|\n"),
    markdown("items", "- a\n  b\n"),
    markdown("blank lines", "\n"),
    markdown("spaces", " "),
    markdown("indented lines", "    b\n"),
    markdown("rules", "---\n"),
    markdown("exclamation marks", "!"),
    markdown("comments in Markdown", "<!-- a -->b\n"),
    Series { name: "open Markdown comment", kind: Kind::Markdown, start: "<!--", unit: "a " },
    markdown("e acute in Markdown", "é"),
    markdown("rockets in Markdown", "🚀"),
    markdown("escaped rockets", "\\🚀"),
];

fn words(r: &mut Random, n: usize) -> String {
    let all: Vec<&str> = PROSE.split_whitespace().map(|word| word.trim_matches(',')).collect();
    (0..n).map(|_| *r.pick(&all)).collect::<Vec<_>>().join(" ")
}

/// One item as a code host writes it: words, code, who made the change and where.
fn change(r: &mut Random) -> String {
    let (dev, pull) = (r.below(90), 400 + r.below(90));
    let user = format!("<a class=\"user-mention\" data-hovercard-type=\"user\" href=\"https://example.org/dev{dev}\">@dev{dev}</a>");
    let link = format!("<a class=\"issue-link\" data-id=\"{pull}7\" data-hovercard-type=\"pull_request\" href=\"https://example.org/relay/pull/{pull}\">#{pull}</a>");
    format!("<li>{} <code>{}</code> {} by {user} in {link}</li>\n", words(r, 6), words(r, 1), words(r, 3))
}

/// A release page of some 4 kB, with each kind of tag that such pages have.
fn release_page(r: &mut Random) -> String {
    let mut out = format!("<h2 dir=\"auto\">What&#39;s Changed</h2>\n<p dir=\"auto\">{}. <strong>Full list</strong>: <a href=\"https://example.org/v2\"><tt>v1...v2</tt></a></p>\n", words(r, 40));
    out.push_str("<h3 dir=\"auto\">Fixes</h3>\n<ul dir=\"auto\">\n");
    (0..6).for_each(|_| out.push_str(&change(r)));
    out.push_str(&format!("</ul>\n<blockquote>\n<p dir=\"auto\">{} &amp; <em>{}</em> &lt;1&nbsp;s.</p>\n</blockquote>\n<ol dir=\"auto\">\n", words(r, 20), words(r, 3)));
    (0..4).for_each(|_| out.push_str(&format!("<li>{}</li>\n", words(r, 14))));
    out.push_str("</ol>\n<div class=\"highlight\" dir=\"auto\"><pre>settool load --file relay.bin\nsettool verify   <span class=\"pl-c\"># wait</span>\n</pre></div>\n");
    out.push_str("<table role=\"table\">\n<tr>\n<th>File</th>\n<th>Size</th>\n</tr>\n<tr>\n<td>relay.bin</td>\n<td>812 kB</td>\n</tr>\n</table>\n");
    while out.len() < 4_096 {
        out.push_str(&format!("<p dir=\"auto\">{}.</p>\n", words(r, 10)));
    }
    out
}

fn nested(r: &mut Random, depth: usize) -> String {
    let name = ["ol", "ul"][depth % 2];
    let mut out = format!("<{name}>\n");
    for _ in 0..3 {
        out.push_str(&format!("<li>{} <strong>{}</strong>", words(r, 3), words(r, 1)));
        if depth < 4 && r.once_in(2) {
            out.push_str(&format!("\n{}", nested(r, depth + 1)));
        }
        out.push_str("</li>\n");
    }
    out + &format!("</{name}>\n")
}

/// A line of Markdown: a heading, an item, nothing, or prose with a link.
fn line(r: &mut Random) -> String {
    match r.below(20) {
        0 | 1 => format!("\n## {}\n\n", words(r, 4)),
        2..=5 => format!("- {} **{}** {} `{}` [{}](https://example.org/{})\n", words(r, 5), words(r, 1), words(r, 4), words(r, 1), words(r, 2), r.below(999)),
        6 => "\n".to_string(),
        _ => format!("{} *{}* {} [{}](https://example.org/{}) {}\n", words(r, 6), words(r, 1), words(r, 3), words(r, 2), r.below(999), words(r, 3)),
    }
}

/// Pieces up to a size, and cut there.
fn up_to(size: usize, mut piece: impl FnMut() -> String) -> Vec<u8> {
    let mut out = String::new();
    while out.len() < size {
        out.push_str(&piece());
    }
    out.truncate(size);
    out.into_bytes()
}

pub fn fixed() -> Vec<Input> {
    let mut r = Random::new(1);
    let input = |name, kind, bytes| Input { name, kind, bytes };
    vec![
        input("release page, 4 kB", Kind::Page, release_page(&mut r).into_bytes()),
        input("plain text, 200 kB", Kind::Page, up_to(200_000, || words(&mut r, 12) + ".\n")),
        input("nested lists, 23 kB", Kind::Page, up_to(23_000, || nested(&mut r, 1))),
        input("prose, 60 kB", Kind::Markdown, up_to(60_000, || line(&mut r))),
        input("open brackets, 60 kB", Kind::Markdown, "[".repeat(60_000).into_bytes()),
        input("ampersands, 200 kB", Kind::Page, "&".repeat(200_000).into_bytes()),
        input("open links, 60 kB", Kind::Markdown, "[](".repeat(20_000).into_bytes()),
        input("stars, 1 MiB", Kind::Page, "*".repeat(1_048_576).into_bytes()),
    ]
}
