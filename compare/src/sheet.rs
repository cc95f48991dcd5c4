//! Document 01's sheet, read a second time and in another way than the port does: a page's written form and its blocks, or none.
use crate::oracle::{Block, Span};

pub(crate) struct Sheet {
    pub written: String,
    pub blocks: Vec<Block>,
}

struct Reader<'a> {
    rest: &'a str,
    rows: Vec<String>,
    blocks: Vec<Block>,
}

/// The tree's page where it is a sheet within the limits.
pub(crate) fn read(page: &str) -> Option<Sheet> {
    let mut reader = Reader { rest: page, rows: Vec::new(), blocks: Vec::new() };
    let mut parts = Vec::new();
    reader.newline();
    while !reader.rest.is_empty() {
        reader.block()?;
        parts.push(std::mem::take(&mut reader.rows).join("\n"));
        reader.newline();
    }
    let written = parts.join("\n\n");
    (written.len() < 16_000 && written.chars().count() <= 8_000).then_some(Sheet { written, blocks: reader.blocks })
}

impl Reader<'_> {
    fn eat(&mut self, text: &str) -> Option<()> {
        self.rest = self.rest.strip_prefix(text)?;
        Some(())
    }
    fn newline(&mut self) {
        self.eat("\n");
    }
    fn block(&mut self) -> Option<()> {
        if self.eat("<p>").is_some() {
            let (written, spans) = self.line()?;
            self.rows.push(written);
            self.blocks.push(Block::Paragraph(spans));
            return self.eat("</p>");
        }
        for level in 1..=6 {
            if self.eat(&format!("<h{level}>")).is_some() {
                let (written, spans) = self.line()?;
                self.rows.push(format!("{} {written}", "#".repeat(level.min(3))));
                self.blocks.push(Block::Heading(level.min(3) as u8, spans));
                return self.eat(&format!("</h{level}>"));
            }
        }
        self.list(0)
    }
    fn list(&mut self, depth: usize) -> Option<()> {
        let name = if self.rest.starts_with("<ol>") { "ol" } else { "ul" };
        self.eat(&format!("<{name}>"))?;
        if depth == 8 {
            return None;
        }
        self.newline();
        let mut place = 1;
        while place == 1 || self.rest.starts_with("<li>") {
            self.item(depth, if name == "ol" { place } else { 0 })?;
            self.newline();
            place += 1;
        }
        self.eat(&format!("</{name}>"))
    }
    fn item(&mut self, depth: usize, place: usize) -> Option<()> {
        self.eat("<li>")?;
        let (written, spans) = self.line()?;
        let (lead, marker) = match place {
            0 => ("-".to_owned(), "\u{2022}".to_owned()),
            n => (format!("{n}."), format!("{n}.")),
        };
        self.rows.push(format!("{}{lead} {written}", "  ".repeat(depth)));
        self.blocks.push(Block::Item { depth, marker, spans });
        if self.eat("</li>").is_some() {
            return Some(());
        }
        self.newline();
        self.list(depth + 1)?;
        self.newline();
        self.eat("</li>")
    }
    fn line(&mut self) -> Option<(String, Vec<Span>)> {
        let (mut written, mut spans) = (String::new(), Vec::<Span>::new());
        while let Some((open, close, marks, bold, italic, code)) = self.style() {
            self.eat(open)?;
            let text = self.text()?;
            self.eat(close)?;
            let tagged = !marks.is_empty();
            let special = |c| matches!(c, '\\' | '*' | '[' | '!' | '`');
            if text.is_empty() || text.contains("  ") || tagged && (text.starts_with(' ') || text.ends_with(' ')) || code && text.contains(special) {
                return None;
            }
            if let Some(last) = spans.last() {
                let plain = !(last.bold || last.italic || last.code);
                if plain && !tagged || last.italic && italic {
                    return None;
                }
            }
            let escaped: String = text.chars().flat_map(|c| special(c).then_some('\\').into_iter().chain([c])).collect();
            written.push_str(&format!("{marks}{escaped}{marks}"));
            spans.push(Span { text, bold, italic, code });
        }
        let (first, last) = (spans.first()?, spans.last()?);
        (first.text.starts_with(|c: char| c.is_ascii_alphabetic()) && !last.text.ends_with(' ')).then_some((written, spans))
    }
    /// The run that starts here: its tags, its marks and its emphasis.
    fn style(&self) -> Option<(&'static str, &'static str, &'static str, bool, bool, bool)> {
        let tags = [("<strong><em>", "</em></strong>", "***", true, true, false), ("<strong>", "</strong>", "**", true, false, false), ("<em>", "</em>", "*", false, true, false), ("<code>", "</code>", "`", false, false, true)];
        if let Some(tag) = tags.iter().find(|tag| self.rest.starts_with(tag.0)) {
            return Some(*tag);
        }
        let plain = self.rest.chars().next().is_some_and(|c| c != '<' && c != '\n');
        plain.then_some(("", "", "", false, false, false))
    }
    fn text(&mut self) -> Option<String> {
        let mut text = String::new();
        while let Some(c) = self.rest.chars().next() {
            let (c, size) = match c {
                '<' | '\n' => break,
                '&' => *[("&lt;", '<'), ("&amp;", '&'), ("&gt;", '>'), ("&quot;", '"')].iter().find(|r| self.rest.starts_with(r.0)).map(|r| (r.1, r.0.len())).as_ref()?,
                ' ' => (c, 1),
                c if c.is_control() || c.is_whitespace() => return None,
                c => (c, c.len_utf8()),
            };
            text.push(c);
            self.rest = &self.rest[size..];
        }
        Some(text)
    }
}
