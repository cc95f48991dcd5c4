//! The search for inputs on which the port is slow: nothing, each piece of text, and each two of them, repeated to a size.
use crate::inputs::Kind;
use crate::timing::{measure, number, stop, Buffers, Effort};
use std::time::Duration;

/// What pages are made of: characters of every class that the converter tells apart, references, comments, and tags.
const PAGE: [&str; 93] = [
    "a", "b1", "A", " ", "\n", "\t", "\r", ".", "1", "é", "€", "🚀", "\u{a0}", "\u{3000}", "\u{85}", "\u{2028}", "<", ">", "/", "!", "-", "<!--", "-->", "&", ";", "&amp;", "&lt;",
    "&#65;", "&#x1F680;", "&nbsp;", "&quot;", "&none;", "#", "*", "`", "[", "\\", "+", "|", "\"", ",", "(", "\0", "\u{7f}", "\u{9f}", "<p>", "</p>", "<h1>", "</h1>", "<h6>", "<ul>",
    "</ul>", "<ol>", "</ol>", "<li>", "</li>", "<b>", "</b>", "<strong>", "</strong>", "<em>", "</em>", "<code>", "</code>", "<pre>", "</pre>", "<br>", "<br/>", "<tr>", "</tr>",
    "<td>", "</td>", "</th>", "<hr>", "<div class=\"x\">", "</div>", "<blockquote>", "<script>", "</script>", "<style>", "</style>", "<a href=\"https://example.org/x/y/z\">", "</a>",
    "<span>", "</span>", "<x>", "<>", "< >", "</>", "<img src=\"a.png\" alt=\"long text in place of an image\">", "<P>", "abcdefgh",
    "The relay now trips when the phase current exceeds its pickup. ",
];

/// What Markdown is made of: marks, markers, and characters of every class.
const MARKDOWN: [&str; 58] = [
    "a", "1", " ", "\n", "\t", "\r\n", ".", "é", "€", "🚀", "\u{a0}", "\u{3000}", "#", "# ", "## a\n", "- ", "* ", "+ ", "1. ", "123456789. ", "-", "*", "**", "***", "---", "---\n", "_",
    "|", "|a|b|\n", "|---|---|\n", "`", "``", "`a`", "[", "]", "(", ")", "[a](b)", "![a](b)", "!", "![", "](", "[](", "\\", "\\*", "<!--", "-->", "<!-- a -->", "<!-->", "<", ">", "&",
    "abcdefgh", "  ", "\n\n", "- a\n", "  b\n", "The relay now trips when the phase current exceeds its pickup. ",
];

/// How long an input is, where no size is given.
const SIZE: usize = 8_000;
/// A first look, and a longer one where the first says that the port takes more than 0.8 of the Rust's time.
const GLANCE: Effort = Effort { time: Duration::from_millis(20), rounds: 5 };
const LOOK: Effort = Effort { time: Duration::from_millis(100), rounds: 400 };

struct Found {
    unit: String,
    port: f64,
    rust: f64,
}

/// Nothing, each piece and each two pieces.
fn units(pieces: &[&str]) -> Vec<String> {
    let twos = pieces.iter().flat_map(|first| pieces.iter().map(move |second| format!("{first}{second}")));
    std::iter::once(String::new()).chain(pieces.iter().map(|piece| piece.to_string())).chain(twos).collect()
}

/// The times of all units that the port takes; it refuses those that open more than 64 lists.
fn timed(kind: Kind, pieces: &[&str], size: usize, b: &mut Buffers) -> Vec<Found> {
    let mut all = Vec::new();
    for unit in units(pieces) {
        let input = unit.repeat((size / unit.len().max(1)).max(1)).into_bytes();
        if number(kind, &input, b) != 0 {
            continue;
        }
        let (mut port, mut rust) = measure(&unit, kind, &input, GLANCE, b);
        if port > 0.8 * rust {
            (port, rust) = measure(&unit, kind, &input, LOOK, b);
        }
        all.push(Found { unit, port, rust });
    }
    all
}

fn report(name: &str, mut all: Vec<Found>) {
    all.sort_by(|one, other| (other.port / other.rust).total_cmp(&(one.port / one.rust)));
    let over = |limit: f64| all.iter().filter(|found| found.port > limit * found.rust).count();
    println!("| {name} | {} | {} | {} | {} |", all.len(), over(0.8), over(0.9), over(1.0));
    for found in all.iter().take(12) {
        eprintln!("{name}: {:.2}, port {:.1} µs, Rust {:.1} µs: {:?}", found.port / found.rust, found.port / 1000.0, found.rust / 1000.0, found.unit);
    }
}

/// The table of both kinds on standard output, the highest ratios on standard error.
pub fn run(words: &[String]) {
    let size = match words {
        [] => SIZE,
        [word] => word.parse().ok().filter(|size| (1..=60_000).contains(size)).unwrap_or_else(|| stop(format!("{word} is no size; give 1 to 60000 bytes"))),
        _ => stop("search takes a size and no further words".to_string()),
    };
    let mut b = Buffers::new();
    println!("| kind | inputs | ratio above 0.8 | above 0.9 | above 1 |\n|---|---|---|---|---|");
    report("pages", timed(Kind::Page, &PAGE, size, &mut b));
    report("Markdown", timed(Kind::Markdown, &MARKDOWN, size, &mut b));
}
