//! What a section of a document has, by places in the section: so it stays when what is before the section changes.

use crate::rules::{self, is_nowhere, shown, Findings};
use limecove::{Definitions, Error, Event, LineIndex, Name, Node, Tree, Undefined};
use std::ops::Range;

/// A place in a section: line and unit of UTF-16, both from 0.
#[derive(Clone, Copy, Debug, PartialEq, Eq, PartialOrd, Ord)]
pub struct At {
    pub line: usize,
    pub unit: usize,
}

/// Bytes of a section, and their places.
#[derive(Clone, Debug, PartialEq, Eq)]
pub struct Span {
    pub bytes: Range<usize>,
    pub from: At,
    pub to: At,
}

#[derive(Clone, Debug, PartialEq, Eq)]
pub struct Heading {
    pub level: u8,
    pub title: String,
    pub span: Span,
    /// Its text, and the whole heading if it has none.
    pub name: Span,
}

/// How a reference is written: `[a][b]`, `[b][]` or `[b]`.
#[derive(Clone, Copy, Debug, PartialEq, Eq)]
pub enum Form {
    Full,
    Collapsed,
    Shortcut,
}

/// A link or an image by reference.
#[derive(Clone, Debug, PartialEq, Eq)]
pub struct Reference {
    /// In the form by which labels are compared.
    pub label: Vec<u8>,
    pub form: Form,
    pub is_link: bool,
    pub span: Span,
    /// What is between the brackets of the label.
    pub name: Span,
}

#[derive(Clone, Debug, PartialEq, Eq)]
pub struct Definition {
    /// In the form by which labels are compared.
    pub label: Vec<u8>,
    pub is_nowhere: bool,
    pub span: Span,
    /// What is between the brackets of the label.
    pub name: Span,
}

/// A semantic token: a kind is an index into [`TOKENS`].
#[derive(Clone, Debug, PartialEq, Eq)]
pub struct Token {
    pub at: At,
    pub units: usize,
    pub kind: usize,
}

#[derive(Clone, Debug, Default, PartialEq, Eq)]
pub struct Facts {
    /// How many line endings there are.
    pub lines: usize,
    pub headings: Vec<Heading>,
    pub definitions: Vec<Definition>,
    pub references: Vec<Reference>,
    /// Where links with a resource, definitions and autolinks go, and what says so.
    pub links: Vec<(Vec<u8>, Span)>,
    /// References that nothing defines: what is between the brackets of the label.
    pub undefined: Vec<Span>,
    /// Links without a text.
    pub empty: Vec<Span>,
    /// What the rules find.
    pub findings: Findings,
    /// The first line, the last line, and whether it is a comment.
    pub folds: Vec<(usize, usize, bool)>,
    pub tokens: Vec<Token>,
}

/// The kinds of semantic tokens, by the names that the protocol has.
pub const TOKENS: [&str; 7] = [
    "class", "keyword", "string", "property", "macro", "comment", "operator",
];

fn token(name: Name, is_in_heading: bool) -> Option<usize> {
    use Name::*;
    Some(match name {
        Data if is_in_heading => 0,
        HeadingAtxSequence
        | HeadingSetextUnderlineSequence
        | ListItemMarker
        | ListItemValue
        | BlockQuoteMarker
        | ThematicBreakSequence
        | CodeFencedFenceSequence
        | EmphasisSequence
        | StrongSequence
        | HardBreakEscape => 1,
        CodeTextData | CodeFlowChunk => 2,
        AutolinkProtocol | AutolinkEmail => 3,
        CharacterEscapeMarker
        | CharacterEscapeValue
        | CharacterReferenceMarker
        | CharacterReferenceValue => 4,
        HtmlFlowData | HtmlTextData => 5,
        LabelMarker
        | LabelImageMarker
        | ReferenceMarker
        | ResourceMarker
        | DefinitionLabelMarker
        | DefinitionMarker => 6,
        _ => return None,
    })
}

/// The places of a section.
pub struct Places<'a> {
    /// The bytes of the section.
    pub text: &'a [u8],
    /// Where it starts in the document.
    start: usize,
    lines: LineIndex<'a>,
}

impl<'a> Places<'a> {
    /// # Errors
    ///
    /// If memory runs out.
    pub fn new(document: &'a [u8], section: Range<usize>) -> Result<Places<'a>, Error> {
        let (start, text) = (section.start, &document[section]);
        let lines = LineIndex::new(text)?;
        Ok(Places { text, start, lines })
    }

    pub fn at(&self, byte: usize) -> At {
        let place = self.lines.line_column(byte);
        At {
            line: place.line - 1,
            unit: place.utf16 - 1,
        }
    }

    pub fn span(&self, bytes: Range<usize>) -> Span {
        Span {
            from: self.at(bytes.start),
            to: self.at(bytes.end),
            bytes,
        }
    }

    /// The bytes of the section that a span covers.
    pub fn bytes(&self, node: &Node<'_>) -> Range<usize> {
        node.bytes().start - self.start..node.bytes().end - self.start
    }

    /// How many lines there are: one more than line endings.
    pub fn lines(&self) -> usize {
        self.lines.line_count()
    }

    /// The bytes of a line, from 0, without its line ending.
    pub fn line(&self, line: usize) -> Range<usize> {
        self.lines.line(line + 1).unwrap_or_default()
    }
}

struct Reader<'a> {
    places: &'a Places<'a>,
    facts: Facts,
}

impl Reader<'_> {
    fn span(&self, node: &Node<'_>) -> Span {
        self.places.span(self.places.bytes(node))
    }

    fn fold(&mut self, node: &Node<'_>, is_comment: bool) {
        let lines = node.last_line() - node.span().start.line;
        if lines > 0 {
            let from = self.span(node).from.line;
            self.facts.folds.push((from, from + lines, is_comment));
        }
    }

    fn heading(&mut self, node: &Node<'_>) -> Result<(), Error> {
        let text = node.child(Name::HeadingAtxText);
        let text = text.or_else(|| node.child(Name::HeadingSetextText));
        let title = match text {
            Some(text) => lossy(&text.decoded()?),
            None => String::new(),
        };
        let name = self.span(&text.unwrap_or(*node));
        let level = node.heading_level().unwrap_or(1);
        let span = self.span(node);
        self.facts.headings.push(Heading {
            level,
            title,
            span,
            name,
        });
        Ok(())
    }

    fn definition(&mut self, node: &Node<'_>) -> Result<(), Error> {
        let mut inner = node.descendants();
        let place = inner.find(|it| it.name() == Name::DefinitionDestinationString);
        let to = node.link()?.map_or(Vec::new(), |it| it.destination);
        let is_nowhere = is_nowhere(&to);
        if let Some(place) = place {
            let place = self.span(&place);
            self.facts.links.push((to, place));
        }
        if let (Some(name), Some(label)) = (node.label(), node.normalized_label()?) {
            self.facts.definitions.push(Definition {
                label,
                is_nowhere,
                span: self.span(node),
                name: self.span(&name),
            });
        }
        Ok(())
    }

    fn link(&mut self, node: &Node<'_>) -> Result<(), Error> {
        if let Some(resource) = node.child(Name::Resource) {
            let mut inner = resource.descendants();
            let place = inner.find(|it| it.name() == Name::ResourceDestinationString);
            let place = self.span(&place.unwrap_or(resource));
            if let Some(to) = node.link()? {
                self.facts.links.push((to.destination, place));
            }
        }
        let is_link = node.name() == Name::Link;
        if is_link && shown(node).is_none() {
            self.facts.empty.push(self.span(node));
        }
        if let (Some(name), Some(label)) = (node.label(), node.normalized_label()?) {
            let form = match (name.name(), node.child(Name::Reference)) {
                (Name::ReferenceString, _) => Form::Full,
                (_, Some(_)) => Form::Collapsed,
                _ => Form::Shortcut,
            };
            self.facts.references.push(Reference {
                label,
                form,
                is_link,
                span: self.span(node),
                name: self.span(&name),
            });
        }
        Ok(())
    }

    fn node(&mut self, node: &Node<'_>, is_in_heading: bool) -> Result<(), Error> {
        use Name::*;
        match node.name() {
            HeadingAtx | HeadingSetext => self.heading(node)?,
            Definition => self.definition(node)?,
            Link | Image => self.link(node)?,
            Autolink => {
                if let Some(target) = node.link()? {
                    let place = self.span(node);
                    self.facts.links.push((target.destination, place));
                }
            }
            ListItem | ListOrdered | ListUnordered | BlockQuote | CodeFenced | CodeIndented => {
                self.fold(node, false)
            }
            HtmlFlow => self.fold(node, node.text().starts_with(b"<!--")),
            _ => {}
        }
        let kind = token(node.name(), is_in_heading).filter(|_| node.name().is_void());
        if let Some(kind) = kind {
            let Span { from, to, .. } = self.span(node);
            if from.line == to.line && from < to {
                let units = to.unit - from.unit;
                self.facts.tokens.push(Token {
                    at: from,
                    units,
                    kind,
                });
            }
        }
        Ok(())
    }
}

/// Bytes as the text that they are: a client sends no others.
pub fn lossy(bytes: &[u8]) -> String {
    String::from_utf8_lossy(bytes).into_owned()
}

/// References that nothing defines, without what GFM does not take for such: boxes of tasks, at the front of items, and footnotes.
fn undefined_in(places: &Places<'_>, tree: &Tree<'_>, asked: &[Undefined]) -> Vec<Span> {
    let prefixes = tree.nodes().filter(|it| it.name() == Name::ListItemPrefix);
    let mut fronts = prefixes.map(|it| it.bytes().end).peekable();
    let mut found = Vec::new();
    for it in asked {
        let bytes = it.label.start - places.start..it.label.end - places.start;
        let label = &places.text[bytes.clone()];
        while fronts.next_if(|end| end + 1 < it.label.start).is_some() {}
        let is_in_front = fronts.peek() == Some(&(it.label.start - 1));
        let is_box = is_in_front && matches!(label, b"x" | b"X");
        if !is_box && !label.starts_with(b"^") {
            found.push(places.span(bytes));
        }
    }
    found
}

/// What a section has, from its bytes in the document, its events, and its references that nothing defines.
///
/// # Errors
///
/// If memory runs out.
pub fn facts_of(
    document: &[u8],
    range: Range<usize>,
    events: &[Event],
    undefined: &[Undefined],
) -> Result<Facts, Error> {
    // where links by reference go is asked of all sections together
    let none = Definitions::default();
    let tree = Tree::with_definitions(document, events, &none)?;
    let places = Places::new(document, range)?;
    let mut rules = rules::Reader::new(&places);
    let mut reader = Reader {
        places: &places,
        facts: Facts::default(),
    };
    reader.facts.lines = places.lines() - 1;
    let mut heading_ends = 0;
    for node in tree.nodes() {
        if matches!(node.name(), Name::HeadingAtx | Name::HeadingSetext) {
            heading_ends = node.bytes().end;
        }
        reader.node(&node, node.bytes().start < heading_ends)?;
        rules.node(&node)?;
    }
    let mut facts = reader.facts;
    facts.findings = rules.findings(&tree);
    if !undefined.is_empty() {
        facts.undefined = undefined_in(&places, &tree, undefined);
    }
    Ok(facts)
}
