//! Thirteen rules, by the names that markdownlint has for them. Each is held in a section by itself, and what sections have together in [`tell`]:
//! so an edit reads again only the sections that it changes.
//!
//! MD001 a heading skips a rank. MD004 bullets differ. MD009 blanks end a line, and are not the two of a hard break. MD010 a tab. MD012 two
//! blank lines. MD013 a line has more than 120 characters. MD022 no blank line is between a heading and a block beside it. MD025 a second
//! heading of the first rank. MD031 no blank line is between fenced code and a block beside it. MD034 a bare address. MD040 fenced code
//! names no language. MD042 a link goes nowhere. MD045 an image has no description.
//!
//! They hold in quotes and lists too. What is in code and in raw HTML is not looked at. A link and a definition may have a bare address. It
//! takes time in proportion to the section, in any nesting.

use crate::facts::{Facts, Places, Span};
use limecove::{Error, ListMarker, Name, Node, Tree};
use std::collections::{HashMap, HashSet};
use std::ops::Range;

const LONGEST: usize = 120;

/// A rule: its name, and what it says.
pub type Rule = (&'static str, &'static str);

pub const RANK: Rule = ("MD001", "a heading that skips a rank");
pub const BULLET: Rule = ("MD004", "a bullet that differs from the first one");
pub const BLANKS: Rule = ("MD009", "blanks at the end of a line");
pub const TAB: Rule = ("MD010", "a tab");
pub const BLANK_LINES: Rule = ("MD012", "more than one blank line");
pub const LONG: Rule = ("MD013", "a line of more than 120 characters");
pub const BELOW_HEADING: Rule = ("MD022", "no blank line below a heading");
pub const ABOVE_HEADING: Rule = ("MD022", "no blank line above a heading");
pub const TITLE: Rule = ("MD025", "a second heading of rank 1");
pub const BELOW_CODE: Rule = ("MD031", "no blank line below fenced code");
pub const ABOVE_CODE: Rule = ("MD031", "no blank line above fenced code");
pub const ADDRESS: Rule = ("MD034", "an address without < and >");
pub const LANGUAGE: Rule = ("MD040", "fenced code without a language");
pub const NOWHERE: Rule = ("MD042", "a link that goes nowhere");
pub const IMAGE: Rule = ("MD045", "an image without a description");

/// The first or the last block of a section that is in no other.
#[derive(Clone, Debug, PartialEq, Eq)]
struct Edge {
    name: Name,
    /// What is told of it: its first line, or its end.
    span: Span,
    /// The first line of the first block, and the last of the last.
    line: usize,
    /// Whether the section has a blank line in front of the first block.
    is_clear: bool,
}

/// What a section has of the rules.
#[derive(Clone, Debug, Default, PartialEq, Eq)]
pub struct Findings {
    /// What is so whatever the other sections have.
    found: Vec<(Rule, Span)>,
    /// The marker and the first line of each list with bullets.
    bullets: Vec<(ListMarker, Span)>,
    first: Option<Edge>,
    last: Option<Edge>,
    /// Whether the last line is blank.
    ends_blank: bool,
}

fn is_blank(line: &[u8]) -> bool {
    line.iter().all(|it| matches!(it, b' ' | b'\t'))
}

/// Whether a block and the next one beside it need a blank line between them, and which rules say so: below the first, above the second.
fn gap(block: Name, next: Name) -> [Option<Rule>; 2] {
    use Name::{CodeFenced, HeadingAtx, HeadingSetext};
    let below = match block {
        CodeFenced => Some(BELOW_CODE),
        HeadingAtx | HeadingSetext => Some(BELOW_HEADING),
        _ => None,
    };
    let above = match next {
        CodeFenced => Some(ABOVE_CODE),
        HeadingAtx | HeadingSetext => Some(ABOVE_HEADING),
        _ => None,
    };
    [below, above]
}

/// The text of a link, or the description of an image, if there is something between its brackets.
pub fn shown<'a>(link: &Node<'a>) -> Option<Node<'a>> {
    link.child(Name::Label)?.child(Name::LabelText)
}

/// Whether an address leads nowhere.
pub fn is_nowhere(address: &[u8]) -> bool {
    matches!(address, b"" | b"#")
}

/// Reads what a section has of the rules. Its spans come as a walk meets them: those in one come behind it.
pub struct Reader<'a> {
    places: &'a Places<'a>,
    findings: Findings,
    /// Where the last code or raw HTML ends, and the last fence.
    code: usize,
    fence: usize,
    /// Where the last link or definition ends, and the last image that is in no other.
    link: usize,
    image: usize,
    /// The last blank line, and how many are before it.
    blank: Option<(usize, usize)>,
    /// Lines that may be long.
    long: HashSet<usize>,
}

impl<'a> Reader<'a> {
    pub fn new(places: &'a Places<'a>) -> Reader<'a> {
        Reader {
            places,
            findings: Findings::default(),
            code: 0,
            fence: 0,
            link: 0,
            image: 0,
            blank: None,
            long: HashSet::new(),
        }
    }

    fn say(&mut self, rule: Rule, bytes: Range<usize>) {
        self.findings.found.push((rule, self.places.span(bytes)));
    }

    /// A place up to the end of its line.
    fn in_line(&self, byte: usize) -> Range<usize> {
        let line = self.places.line(self.places.at(byte).line);
        byte..line.end.max(byte)
    }

    /// The last line of what ends here. What ends where a line begins has nothing in it.
    fn last_line(&self, bytes: &Range<usize>) -> usize {
        let end = self.places.at(bytes.end);
        end.line - usize::from(end.unit == 0 && bytes.end > bytes.start && end.line > 0)
    }

    /// Whether what begins here is in code or raw HTML. The line of a fence is not.
    fn is_in_code(&self, at: usize) -> bool {
        at < self.code && at >= self.fence
    }

    /// Looks at a span.
    ///
    /// # Errors
    ///
    /// If memory runs out.
    pub fn node(&mut self, node: &Node<'_>) -> Result<(), Error> {
        use Name::{CodeFenced, CodeIndented, CodeText, HtmlFlow, HtmlText};
        let (name, bytes) = (node.name(), self.places.bytes(node));
        let is_code = matches!(
            name,
            CodeFenced | CodeIndented | CodeText | HtmlFlow | HtmlText
        );
        match name {
            Name::CodeFencedFence => self.fence = bytes.end,
            Name::Link | Name::Definition => self.link = bytes.end,
            _ if is_code => self.code = bytes.end,
            _ => {}
        }
        if name.is_block() {
            self.beside(node);
        }
        if name == CodeFenced && node.fence_info()?.is_none() {
            self.say(LANGUAGE, self.in_line(bytes.start));
        } else if name == Name::Link {
            self.link(node)?;
        } else if name == Name::Image {
            self.image(node)?;
        } else if name == Name::ListUnordered {
            let marker = node.list().map(|list| list.marker);
            let span = self.places.span(self.in_line(bytes.start));
            let bullets = &mut self.findings.bullets;
            bullets.extend(marker.map(|it| (it, span)));
        } else if name == Name::BlankLineEnding {
            self.blank_line(&bytes);
        } else if name.is_void() && !self.is_in_code(bytes.start) {
            self.blanks(name, &bytes);
            self.addresses(name, &bytes);
        }
        if is_code || matches!(name, Name::Autolink | Name::Resource | Name::Definition) {
            let first = self.places.at(bytes.start).line;
            self.long.extend(first..=self.last_line(&bytes));
        }
        Ok(())
    }

    /// Looks at a block, and the next one beside it.
    fn beside(&mut self, node: &Node<'_>) {
        let mut behind = node.next_siblings();
        let next = match behind.find(|it| it.name().is_block()) {
            Some(next) => next,
            None => return,
        };
        let [below, above] = gap(node.name(), next.name());
        if below.is_none() && above.is_none() {
            return;
        }
        let (bytes, start) = (self.places.bytes(node), self.places.bytes(&next).start);
        let line = self.places.at(start).line;
        if line > self.last_line(&bytes) + 1 || line == 0 || self.is_blank(line - 1) {
            return;
        }
        if let Some(rule) = below {
            self.say(rule, bytes.end..bytes.end);
        }
        if let Some(rule) = above {
            self.say(rule, self.in_line(start));
        }
    }

    /// Whether a line has nothing but blanks: it may be in code that ends with an item.
    fn is_blank(&self, line: usize) -> bool {
        is_blank(&self.places.text[self.places.line(line)])
    }

    /// A link with a resource. Where one by reference goes, sections say together.
    fn link(&mut self, node: &Node<'_>) -> Result<(), Error> {
        if let Some(target) = node.link()? {
            if is_nowhere(&target.destination) {
                self.say(NOWHERE, self.places.bytes(node));
            }
        }
        Ok(())
    }

    /// An image in the description of another is part of its words, which are read once.
    fn image(&mut self, node: &Node<'_>) -> Result<(), Error> {
        let bytes = self.places.bytes(node);
        if bytes.start < self.image {
            return Ok(());
        }
        self.image = bytes.end;
        let words = shown(node).map_or(Ok(Vec::new()), |label| label.decoded())?;
        if words.iter().all(u8::is_ascii_whitespace) {
            self.say(IMAGE, bytes);
        }
        Ok(())
    }

    fn blank_line(&mut self, bytes: &Range<usize>) {
        if self.is_in_code(bytes.start) {
            return;
        }
        // the blank line behind that of a quote is the first one
        let line = self.places.at(bytes.start).line;
        let written = |line| {
            let text = &self.places.text[self.places.line(line)];
            let end = text.iter().rposition(|it| !matches!(it, b' ' | b'\t'));
            &text[..end.map_or(0, |it| it + 1)]
        };
        let before = match self.blank {
            Some((last, before)) if line == last + 1 && written(line) == written(last) => {
                before + 1
            }
            _ => 0,
        };
        self.blank = Some((line, before));
        if before == 1 {
            self.say(BLANK_LINES, bytes.start..bytes.start);
        }
    }

    /// Tabs, and blanks at the end of a line.
    fn blanks(&mut self, name: Name, bytes: &Range<usize>) {
        let text = &self.places.text[bytes.clone()];
        if let Some(tab) = text.iter().position(|byte| *byte == b'\t') {
            self.say(TAB, bytes.start + tab..bytes.start + tab + 1);
        }
        let behind = self.places.text.get(bytes.end);
        let ends = matches!(behind, None | Some(b'\r' | b'\n'));
        let is_break = name == Name::HardBreakTrailing;
        if ends && (name == Name::SpaceOrTab || is_break && text.len() != 2) {
            self.say(BLANKS, bytes.clone());
        }
    }

    fn addresses(&mut self, name: Name, bytes: &Range<usize>) {
        if name != Name::Data || bytes.start < self.link {
            return;
        }
        let text = &self.places.text[bytes.clone()];
        let mut from = 0;
        while let Some(at) = text[from..].windows(4).position(|it| it == b"http") {
            let start = from + at;
            let is_address = [&b"http://"[..], b"https://"];
            if is_address.iter().any(|it| text[start..].starts_with(it)) {
                let word = text[start..].iter().position(u8::is_ascii_whitespace);
                let end = word.map_or(text.len(), |it| start + it);
                self.say(ADDRESS, bytes.start + start..bytes.start + end);
            }
            from = start + 4;
        }
    }

    fn long_lines(&mut self) {
        for line in 0..self.places.lines() {
            let bytes = self.places.line(line);
            if bytes.len() <= LONGEST || self.long.contains(&line) {
                continue;
            }
            let is_first = |it: &(usize, &u8)| *it.1 & 0xC0 != 0x80;
            let text = self.places.text[bytes.clone()].iter().enumerate();
            if let Some((from, _)) = text.filter(is_first).nth(LONGEST) {
                self.say(LONG, bytes.start + from..bytes.end);
            }
        }
    }

    /// What the section has, of which this is the tree.
    pub fn findings(mut self, tree: &Tree<'_>) -> Findings {
        self.long_lines();
        let mut blocks = tree.children().filter(|it| it.name().is_block());
        if let Some(first) = blocks.next() {
            let (bytes, last) = (self.places.bytes(&first), blocks.last().unwrap_or(first));
            let (line, end) = (self.places.at(bytes.start).line, self.places.bytes(&last));
            self.findings.first = Some(Edge {
                name: first.name(),
                span: self.places.span(self.in_line(bytes.start)),
                line,
                is_clear: line > 0 && self.is_blank(line - 1),
            });
            self.findings.last = Some(Edge {
                name: last.name(),
                span: self.places.span(end.end..end.end),
                line: self.last_line(&end),
                is_clear: false,
            });
        }
        // behind a line ending is no line of the section
        let last = self.last_line(&(0..self.places.text.len()));
        self.findings.ends_blank = self.is_blank(last);
        self.findings
    }
}

/// Tells what sections have of the rules: each with the line and the byte at which it starts, in order. What is told is a span of a section.
pub fn tell<'a>(
    sections: impl Iterator<Item = (&'a Facts, usize, usize)> + Clone,
    mut say: impl FnMut(Rule, &'a Span, usize, usize),
) {
    let nowhere = nowhere(sections.clone());
    let (mut rank, mut has_title, mut first_bullet) = (6, false, None);
    let (mut before, mut is_clear): (Option<(&Edge, usize, usize)>, bool) = (None, true);
    for (facts, line, byte) in sections {
        let findings = &facts.findings;
        for (rule, span) in &findings.found {
            say(*rule, span, line, byte);
        }
        for heading in &facts.headings {
            if heading.level > rank + 1 {
                say(RANK, &heading.span, line, byte);
            }
            if heading.level == 1 && has_title {
                say(TITLE, &heading.span, line, byte);
            }
            has_title |= heading.level == 1;
            rank = heading.level;
        }
        for (marker, span) in &findings.bullets {
            if first_bullet.get_or_insert(*marker) != marker {
                say(BULLET, span, line, byte);
            }
        }
        if !nowhere.is_empty() {
            let links = facts.references.iter().filter(|it| it.is_link);
            for it in links.filter(|it| nowhere.get(&*it.label) == Some(&true)) {
                say(NOWHERE, &it.span, line, byte);
            }
        }
        if let (Some((last, line_of, byte_of)), Some(first)) = (before, &findings.first) {
            let is_next = line + first.line <= line_of + last.line + 1;
            let has_blank = match first.line {
                0 => is_clear,
                _ => first.is_clear,
            };
            if is_next && !has_blank {
                let [below, above] = gap(last.name, first.name);
                if let Some(rule) = below {
                    say(rule, &last.span, line_of, byte_of);
                }
                if let Some(rule) = above {
                    say(rule, &first.span, line, byte);
                }
            }
        }
        before = match &findings.last {
            Some(last) => Some((last, line, byte)),
            None => before,
        };
        is_clear = findings.ends_blank;
    }
}

/// Whether each label leads nowhere, by its first definition. Empty if none does.
fn nowhere<'a>(
    sections: impl Iterator<Item = (&'a Facts, usize, usize)> + Clone,
) -> HashMap<&'a [u8], bool> {
    let mut found = HashMap::new();
    let all = |it: (&'a Facts, usize, usize)| &it.0.definitions;
    if sections.clone().flat_map(all).any(|it| it.is_nowhere) {
        for it in sections.flat_map(all) {
            found.entry(&*it.label).or_insert(it.is_nowhere);
        }
    }
    found
}
