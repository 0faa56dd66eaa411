//! The spans of a document as a tree, and what they say: levels of headings, info strings, text.

mod text;

pub(crate) use self::text::Text;
use crate::labels::Labels;
use crate::{tokenize, Definitions, Error, Event, Kind, Name, Options, Span, TextOptions};
use std::fmt;
use std::hash::{Hash, Hasher};
use std::iter::{self, FusedIterator};
use std::ops::Range;
use std::ptr;

/// The spans of a document as a tree. It keeps about 100 bytes for each span, and the labels of definitions, and is made in time in
/// proportion to the events; labels are sorted.
///
/// ```
/// use limecove::{Options, Tree};
///
/// let tree = Tree::read("# a &amp; b", &Options::default())?;
/// let heading = tree.children().next().unwrap();
/// assert_eq!(heading.heading_level(), Some(1));
/// assert_eq!(heading.decoded()?, b"a & b");
/// # Ok::<(), limecove::Error>(())
/// ```
#[derive(Clone)]
pub struct Tree<'a> {
    document: &'a [u8],
    /// How text was read.
    text: TextOptions,
    places: Vec<Place>,
    /// What links by reference refer to, if nothing else is known.
    pub(crate) labels: Labels,
    /// The definitions of the whole document, if they are known.
    pub(crate) known: Option<&'a Definitions>,
}

/// A span, and where it is in the tree.
#[derive(Clone, Copy)]
struct Place {
    span: Span,
    /// Index of the span that holds it, if one does.
    parent: Option<usize>,
    /// Index of the first span that begins behind it.
    behind: usize,
}

impl<'a> Tree<'a> {
    /// Reads a whole document as the options say: its spans.
    ///
    /// # Errors
    ///
    /// As those of [`tokenize`].
    ///
    /// # Panics
    ///
    /// As [`tokenize`].
    pub fn read<T: AsRef<[u8]> + ?Sized>(
        document: &'a T,
        options: &Options,
    ) -> Result<Tree<'a>, Error> {
        let events = tokenize(document, options)?;
        Ok(Tree::new(document, &events)?.read_with(options.text))
    }

    /// The spans of events of this document, which were read with tab stops at every 4 columns. If the list is not whole, an enter
    /// without an exit ends at the last event, and an exit without an enter is passed over.
    ///
    /// # Errors
    ///
    /// If it runs out of memory.
    pub fn new<T: AsRef<[u8]> + ?Sized>(
        document: &'a T,
        events: &[Event],
    ) -> Result<Tree<'a>, Error> {
        let mut tree = Tree::of(document.as_ref(), events)?;
        tree.labels = Labels::of(&tree)?;
        Ok(tree)
    }

    /// The same for events of some sections of a document, whose definitions these are: links by reference go where the whole document says. The
    /// document is all of it, as events have its places.
    ///
    /// ```
    /// use limecove::{Definitions, Document, Name, Options, Tree};
    ///
    /// let document = Document::new("[a]: b\n\n# c\n\n[A]\n", &Options::default())?;
    /// let definitions = Definitions::of_document(&document)?;
    /// let last = document.sections() - 1;
    /// let events = document.events_in(last..last + 1)?;
    /// let tree = Tree::with_definitions(document.bytes(), &events, &definitions)?;
    /// let link = tree.nodes().find(|node| node.name() == Name::Link).unwrap();
    /// let target = link.link()?.unwrap();
    /// assert_eq!((target.destination.as_slice(), target.defined_at), (&b"b"[..], Some(0..6)));
    /// # Ok::<(), limecove::Error>(())
    /// ```
    ///
    /// # Errors
    ///
    /// If it runs out of memory.
    pub fn with_definitions<T: AsRef<[u8]> + ?Sized>(
        document: &'a T,
        events: &[Event],
        definitions: &'a Definitions,
    ) -> Result<Tree<'a>, Error> {
        let mut tree = Tree::of(document.as_ref(), events)?;
        tree.known = Some(definitions);
        Ok(tree)
    }

    /// The same, of text that was read so.
    pub(crate) fn read_with(mut self, text: TextOptions) -> Tree<'a> {
        self.text = text;
        self
    }

    /// The spans of events.
    fn of(document: &'a [u8], events: &[Event]) -> Result<Tree<'a>, Error> {
        let (mut places, mut open) = (Vec::<Place>::new(), Vec::<usize>::new());
        let got = places.try_reserve_exact(events.len() - events.len() / 2);
        got.map_err(|_| Error::OutOfMemory)?;
        let last = events.last().map(Event::point);
        for event in events {
            match event.kind() {
                Kind::Enter => {
                    let span = Span {
                        name: event.name(),
                        depth: open.len(),
                        start: event.point(),
                        end: last.unwrap_or(event.point()),
                    };
                    open.try_reserve(1).map_err(|_| Error::OutOfMemory)?;
                    places.try_reserve(1).map_err(|_| Error::OutOfMemory)?;
                    let parent = open.last().copied();
                    open.push(places.len());
                    places.push(Place {
                        span,
                        parent,
                        behind: usize::MAX,
                    });
                }
                Kind::Exit => {
                    if let Some(enter) = open.pop() {
                        places[enter].span.end = event.point();
                        places[enter].behind = places.len();
                    }
                }
            }
        }
        for enter in open {
            places[enter].behind = places.len();
        }
        Ok(Tree {
            document,
            text: TextOptions::default(),
            places,
            labels: Labels::default(),
            known: None,
        })
    }

    /// The definition that begins at this byte.
    pub(crate) fn definition_at(&self, byte: usize) -> Option<Node<'_>> {
        let first = self
            .places
            .partition_point(|place| place.span.start.index < byte);
        let begun = (first..self.places.len()).map(|index| self.node(index));
        let mut begun = begun.take_while(|node| node.bytes().start == byte);
        begun.find(|node| node.name() == Name::Definition)
    }

    /// The span of this index.
    pub(crate) fn node(&self, index: usize) -> Node<'_> {
        Node { tree: self, index }
    }

    /// All spans, in the order in which they begin: each comes before the spans in it.
    pub fn nodes(&self) -> Nodes<'_> {
        Nodes {
            tree: self,
            range: 0..self.places.len(),
            by_child: false,
        }
    }

    /// The spans that are in no other.
    pub fn children(&self) -> Nodes<'_> {
        Nodes {
            by_child: true,
            ..self.nodes()
        }
    }

    /// The innermost span that covers the byte of this index, as what is under an editor's cursor. `None` if no span covers it.
    ///
    /// It takes time in proportion to the logarithm of the number of spans, and to the depth of the nesting at the byte.
    ///
    /// ```
    /// use limecove::{Name, Options, Tree};
    ///
    /// let tree = Tree::read("a [*b*](c)", &Options::default())?;
    /// let node = tree.node_at(4).unwrap();
    /// assert_eq!((node.name(), node.text()), (Name::Data, &b"b"[..]));
    /// assert!(node.ancestors().any(|above| above.name() == Name::Link));
    /// # Ok::<(), limecove::Error>(())
    /// ```
    pub fn node_at(&self, index: usize) -> Option<Node<'_>> {
        // what covers the byte covers the last span that begins at or before it, or is that span
        let begun = self
            .places
            .partition_point(|place| place.span.start.index <= index);
        let last = self.node(begun.checked_sub(1)?);
        iter::successors(Some(last), Node::parent).find(|node| node.bytes().end > index)
    }
}

impl fmt::Debug for Tree<'_> {
    fn fmt(&self, f: &mut fmt::Formatter<'_>) -> fmt::Result {
        f.debug_list().entries(self.nodes()).finish()
    }
}

/// How the cells of a column of a table are aligned (GFM, 4.10).
#[derive(Clone, Copy, Debug, PartialEq, Eq, Hash)]
pub enum Alignment {
    /// It is not said.
    None,
    /// To the left.
    Left,
    /// To the right.
    Right,
    /// In the middle.
    Center,
}

impl Alignment {
    /// That of a delimiter cell, which is hyphens with a colon at their ends, or none.
    fn of(cell: &[u8]) -> Alignment {
        match (cell.starts_with(b":"), cell.ends_with(b":")) {
            (false, false) => Alignment::None,
            (true, false) => Alignment::Left,
            (false, true) => Alignment::Right,
            (true, true) => Alignment::Center,
        }
    }
}

/// A span of a [`Tree`], which is cheap to copy.
#[derive(Clone, Copy)]
pub struct Node<'a> {
    tree: &'a Tree<'a>,
    index: usize,
}

/// Two are equal if they are the same span of the same tree.
impl PartialEq for Node<'_> {
    fn eq(&self, other: &Node<'_>) -> bool {
        ptr::eq(self.tree, other.tree) && self.index == other.index
    }
}

impl Eq for Node<'_> {}

impl Hash for Node<'_> {
    fn hash<H: Hasher>(&self, state: &mut H) {
        self.index.hash(state);
    }
}

impl<'a> Node<'a> {
    /// The tree that it is in.
    pub(crate) fn tree(&self) -> &'a Tree<'a> {
        self.tree
    }

    fn place(&self) -> &'a Place {
        &self.tree.places[self.index]
    }

    /// The span.
    pub fn span(&self) -> Span {
        self.place().span
    }

    /// What the span is.
    pub fn name(&self) -> Name {
        self.span().name
    }

    /// The bytes of the document that it covers, as [`Span::bytes`].
    pub fn bytes(&self) -> Range<usize> {
        self.span().bytes()
    }

    /// Those bytes of the document: none if the document has not so many.
    pub fn text(&self) -> &'a [u8] {
        self.tree.document.get(self.bytes()).unwrap_or_default()
    }

    /// The bytes that it covers, as code and HTML are shown: of a tab that it begins or ends in, spaces for the columns that are its own,
    /// and U+FFFD for NUL. It takes time in proportion to the bytes.
    ///
    /// ```
    /// use limecove::{Name, Options, Tree};
    ///
    /// let tree = Tree::read("- <b>\n\t<i>", &Options::default())?;
    /// let html = tree.nodes().filter(|node| node.name() == Name::HtmlFlowData).last().unwrap();
    /// assert_eq!((html.text(), html.cut_text()?.as_slice()), (&b"\t<i>"[..], &b"  <i>"[..]));
    /// # Ok::<(), limecove::Error>(())
    /// ```
    ///
    /// # Errors
    ///
    /// If it runs out of memory.
    pub fn cut_text(&self) -> Result<Vec<u8>, Error> {
        let mut text = Text::new();
        text.add_cut(self)?;
        Ok(text.into_bytes())
    }

    /// The span that holds it, if one does.
    pub fn parent(&self) -> Option<Node<'a>> {
        self.place().parent.map(|index| Node { index, ..*self })
    }

    /// The span that holds it, the one that holds that, and so on: as many as its depth.
    pub fn ancestors(&self) -> impl Iterator<Item = Node<'a>> + 'a {
        iter::successors(self.parent(), Node::parent)
    }

    /// The first span behind it with the same parent, or without one as it has none. To step to it takes no longer if this one holds many
    /// spans.
    ///
    /// ```
    /// use limecove::{Name, Options, Tree};
    ///
    /// let tree = Tree::read("# a\n\nb", &Options::default())?;
    /// let heading = tree.children().next().unwrap();
    /// let names: Vec<Name> = heading.next_siblings().map(|node| node.name()).collect();
    /// assert_eq!(names, [Name::LineEnding, Name::BlankLineEnding, Name::Paragraph]);
    /// assert_eq!(heading.next_sibling(), heading.next_siblings().next());
    /// # Ok::<(), limecove::Error>(())
    /// ```
    pub fn next_sibling(&self) -> Option<Node<'a>> {
        self.next_siblings().next()
    }

    /// The spans behind it with the same parent, or without one as it has none.
    pub fn next_siblings(&self) -> Nodes<'a> {
        let end = self
            .parent()
            .map_or(self.tree.places.len(), |parent| parent.place().behind);
        Nodes {
            tree: self.tree,
            range: self.place().behind..end,
            by_child: true,
        }
    }

    /// The spans right in it. To step over a child takes no longer if it holds many spans.
    pub fn children(&self) -> Nodes<'a> {
        Nodes {
            by_child: true,
            ..self.descendants()
        }
    }

    /// The spans in it, and in these, and so on, in the order in which they begin.
    pub fn descendants(&self) -> Nodes<'a> {
        Nodes {
            tree: self.tree,
            range: self.index + 1..self.place().behind,
            by_child: false,
        }
    }

    /// The first child of this name, if there is one.
    pub fn child(&self, name: Name) -> Option<Node<'a>> {
        self.children().find(|child| child.name() == name)
    }

    /// The last line that something of it is on, from 1: that of its last byte that is no line ending. As a container and a fence may end where the
    /// line behind them begins, this is where an editor ends what it folds. Of a span of line endings alone it is the line in which it begins.
    ///
    /// It takes time in proportion to the line endings at its end.
    ///
    /// ```
    /// use limecove::{Name, Options, Tree};
    ///
    /// let tree = Tree::read("> a\n> b\n\nc", &Options::default())?;
    /// let quote = tree.children().next().unwrap();
    /// assert_eq!((quote.span().start.line, quote.last_line()), (1, 2));
    /// # Ok::<(), limecove::Error>(())
    /// ```
    pub fn last_line(&self) -> usize {
        let (Span { start, end, .. }, mut text, mut endings) = (self.span(), self.text(), 0);
        while let [rest @ .., b'\r', b'\n'] | [rest @ .., b'\r' | b'\n'] = text {
            (text, endings) = (rest, endings + 1);
        }
        match text {
            [] => start.line,
            _ => end.line.saturating_sub(endings),
        }
    }

    /// The level of a heading, from 1 to 6. `None` if it is no heading.
    ///
    /// ```
    /// use limecove::{Options, Tree};
    ///
    /// let tree = Tree::read("### a\n\nb\n---", &Options::default())?;
    /// let levels: Vec<u8> = tree.nodes().filter_map(|node| node.heading_level()).collect();
    /// assert_eq!(levels, [3, 2]);
    /// # Ok::<(), limecove::Error>(())
    /// ```
    pub fn heading_level(&self) -> Option<u8> {
        match self.name() {
            Name::HeadingAtx => {
                let marks = self.child(Name::HeadingAtxSequence)?.text().len();
                u8::try_from(marks)
                    .ok()
                    .filter(|level| (1..=6).contains(level))
            }
            Name::HeadingSetext => {
                let underline = self.child(Name::HeadingSetextUnderline)?;
                let marks = underline.child(Name::HeadingSetextUnderlineSequence)?;
                match marks.text().first()? {
                    b'=' => Some(1),
                    _ => Some(2),
                }
            }
            _ => None,
        }
    }

    /// Whether a check of GFM is checked, or an item of a list with one. `None` if it is no check and has none.
    ///
    /// ```
    /// use limecove::{Name, Options, Tree};
    ///
    /// let tree = Tree::read("- [x] a", &Options::default().gfm_task_list_item(true))?;
    /// let check = tree.nodes().find(|node| node.name() == Name::GfmTaskListItemCheck).unwrap();
    /// assert_eq!((check.text(), check.is_checked()), (&b"[x]"[..], Some(true)));
    /// # Ok::<(), limecove::Error>(())
    /// ```
    pub fn is_checked(&self) -> Option<bool> {
        let check = match self.name() {
            Name::GfmTaskListItemCheck => *self,
            Name::ListItem => self
                .child(Name::Paragraph)?
                .child(Name::GfmTaskListItemCheck)?,
            _ => return None,
        };
        check.children().find_map(|part| match part.name() {
            Name::GfmTaskListItemValueChecked => Some(true),
            Name::GfmTaskListItemValueUnchecked => Some(false),
            _ => None,
        })
    }

    /// How the cells of each column of a table of GFM are aligned, by its delimiter row. `None` if it is no table.
    ///
    /// ```
    /// use limecove::{Alignment, Options, Tree};
    ///
    /// let tree = Tree::read("|a|b|c|d|\n|-|:-|:-:|-:|", &Options::default().gfm_table(true))?;
    /// let table = tree.children().next().unwrap();
    /// use Alignment::{Center, Left, None, Right};
    /// assert_eq!(table.alignments()?, Some(vec![None, Left, Center, Right]));
    /// # Ok::<(), limecove::Error>(())
    /// ```
    ///
    /// # Errors
    ///
    /// If it runs out of memory.
    pub fn alignments(&self) -> Result<Option<Vec<Alignment>>, Error> {
        let head = match self.name() {
            Name::GfmTable => self.child(Name::GfmTableHead),
            _ => None,
        };
        let row = match head.and_then(|head| head.child(Name::GfmTableDelimiterRow)) {
            Some(row) => row,
            None => return Ok(None),
        };
        let cells = row
            .children()
            .filter(|part| part.name() == Name::GfmTableDelimiterCell);
        let mut found = Vec::new();
        for value in cells.filter_map(|cell| cell.child(Name::GfmTableDelimiterCellValue)) {
            found.try_reserve(1).map_err(|_| Error::OutOfMemory)?;
            found.push(Alignment::of(value.text()));
        }
        Ok(Some(found))
    }

    /// The info string of fenced code, as CommonMark has it: all that follows the opening fence, but for blanks at its ends, with escapes
    /// and references decoded. `None` if there is none, or it is no fenced code. The language is its first word.
    ///
    /// ```
    /// use limecove::{Options, Tree};
    ///
    /// let tree = Tree::read("``` r\\*s  x &copy; \na", &Options::default())?;
    /// let code = tree.children().next().unwrap();
    /// assert_eq!(code.fence_info()?.unwrap(), "r*s  x ©".as_bytes());
    /// # Ok::<(), limecove::Error>(())
    /// ```
    ///
    /// # Errors
    ///
    /// If it runs out of memory.
    pub fn fence_info(&self) -> Result<Option<Vec<u8>>, Error> {
        let fence = match self.name() {
            Name::CodeFenced => self.child(Name::CodeFencedFence),
            _ => None,
        };
        let (mut text, mut blanks) = (Text::new(), None);
        for part in fence.iter().flat_map(Node::children) {
            match part.name() {
                Name::CodeFencedFenceInfo => text.add_nodes(&part)?,
                Name::CodeFencedFenceMeta => {
                    text.add_bytes(blanks.map_or(b"", |blanks: Node<'_>| blanks.text()))?;
                    text.add_nodes(&part)?;
                    let ends = part.descendants().last();
                    if ends.map_or(false, |end| end.name() == Name::Data) {
                        text.trim_end();
                    }
                }
                Name::SpaceOrTab => blanks = Some(part),
                _ => {}
            }
        }
        Ok(Some(text.into_bytes()).filter(|info| !info.is_empty()))
    }

    /// The text as a reader has it: with what escapes and references stand for, without marks and raw HTML. It is UTF-8 if the document is.
    ///
    /// A line ending is `\n`, but a space in a code span. A code span loses a space at both ends, and NUL is U+FFFD, as CommonMark says.
    /// Fenced and indented code is its lines, each with its `\n`, without fences, info string and indentation. It takes time in proportion
    /// to the text and the spans in it.
    ///
    /// ```
    /// use limecove::{Options, Tree};
    ///
    /// let tree = Tree::read("*a* \\* `` ` `` &lt;\n\n    code", &Options::default())?;
    /// let texts: Result<Vec<_>, _> = tree.children().map(|node| node.decoded()).collect();
    /// assert_eq!(texts?, [&b"a * ` <"[..], b"\n", b"\n", b"code\n"]);
    /// # Ok::<(), limecove::Error>(())
    /// ```
    ///
    /// # Errors
    ///
    /// If it runs out of memory.
    pub fn decoded(&self) -> Result<Vec<u8>, Error> {
        let mut text = Text::new();
        text.add_node(self)?;
        Ok(text.into_bytes())
    }
}

/// As its span.
impl fmt::Display for Node<'_> {
    fn fmt(&self, f: &mut fmt::Formatter<'_>) -> fmt::Result {
        self.span().fmt(f)
    }
}

impl fmt::Debug for Node<'_> {
    fn fmt(&self, f: &mut fmt::Formatter<'_>) -> fmt::Result {
        f.debug_tuple("Node").field(&self.span()).finish()
    }
}

/// An iterator over spans of a [`Tree`].
#[derive(Clone, Debug)]
pub struct Nodes<'a> {
    tree: &'a Tree<'a>,
    range: Range<usize>,
    /// Whether the spans in each are passed over.
    by_child: bool,
}

impl<'a> Iterator for Nodes<'a> {
    type Item = Node<'a>;

    fn next(&mut self) -> Option<Node<'a>> {
        let node = self.range.clone().next().map(|index| Node {
            tree: self.tree,
            index,
        })?;
        self.range.start = match self.by_child {
            true => node.place().behind,
            false => node.index + 1,
        };
        Some(node)
    }
}

impl FusedIterator for Nodes<'_> {}

#[cfg(test)]
mod tests {
    use super::*;
    use crate::event::tests::event;

    /// Events by hand: `+` begins a span of this name at this byte, `-` ends one.
    fn events(of: &[(char, Name, usize)]) -> Vec<Event> {
        let kind = |sign| match sign {
            '+' => Kind::Enter,
            _ => Kind::Exit,
        };
        let made = of
            .iter()
            .map(|&(sign, name, at)| event(kind(sign), name, at));
        made.collect()
    }

    /// `a *b* c`, as it is read.
    fn emphasis() -> Vec<Event> {
        use Name::{Data, Emphasis, EmphasisSequence, EmphasisText, Paragraph};
        events(&[
            ('+', Paragraph, 0),
            ('+', Data, 0),
            ('-', Data, 2),
            ('+', Emphasis, 2),
            ('+', EmphasisSequence, 2),
            ('-', EmphasisSequence, 3),
            ('+', EmphasisText, 3),
            ('+', Data, 3),
            ('-', Data, 4),
            ('-', EmphasisText, 4),
            ('+', EmphasisSequence, 4),
            ('-', EmphasisSequence, 5),
            ('-', Emphasis, 5),
            ('+', Data, 5),
            ('-', Data, 7),
            ('-', Paragraph, 7),
        ])
    }

    fn names(nodes: impl Iterator<Item = impl fmt::Display>) -> String {
        let names: Vec<_> = nodes.map(|node| node.to_string()).collect();
        names.join(", ").replace("1:", "")
    }

    #[test]
    fn spans_are_a_tree() {
        let tree = Tree::new("a *b* c", &emphasis()).unwrap();
        let nodes: Vec<_> = tree.nodes().collect();
        assert_eq!(names(tree.children()), "Paragraph 1-8");
        assert_eq!(
            names(nodes[0].children()),
            "Data 1-3, Emphasis 3-6, Data 6-8"
        );
        let inside = "EmphasisSequence 3-4, EmphasisText 4-5, Data 4-5, EmphasisSequence 5-6";
        assert_eq!(names(nodes[2].descendants()), inside);
        assert_eq!(nodes[2].children().count(), 3);
        let data = nodes[2]
            .child(Name::EmphasisText)
            .unwrap()
            .children()
            .last();
        let above = "EmphasisText 4-5, Emphasis 3-6, Paragraph 1-8";
        assert_eq!(names(data.unwrap().ancestors()), above);
        let behind = data.unwrap().parent().unwrap().next_siblings();
        assert_eq!(names(behind), "EmphasisSequence 5-6");
        assert_eq!(names(nodes[1].next_siblings()), "Emphasis 3-6, Data 6-8");
        assert_eq!(names(nodes[0].next_sibling().into_iter()), "");
        assert_eq!(names([tree.node_at(3).unwrap()].iter()), "Data 4-5");
        assert_eq!(tree.node_at(6), nodes[2].next_sibling());
        assert_eq!(tree.node_at(7), None);
        assert_ne!(Some(nodes[0]), tree.clone().nodes().next());
        assert_eq!(nodes[0].decoded().unwrap(), b"a b c");
        assert_eq!((nodes[2].text(), nodes[2].bytes()), (&b"*b*"[..], 2..5));
        let begun = crate::spans_by_start(&emphasis()).unwrap();
        assert!(tree.nodes().map(|node| node.span()).eq(begun));
        for node in tree.nodes() {
            assert!(node
                .children()
                .all(|child| child.parent().unwrap().span() == node.span()));
            assert_eq!(node.heading_level(), None);
            assert_eq!(node.fence_info(), Ok(None));
        }
    }

    /// No part of a list panics, whatever the document is.
    #[test]
    fn parts_of_lists_are_trees() {
        let all = emphasis();
        for from in 0..all.len() {
            for to in from..=all.len() {
                for document in ["a *b* c", "a *", ""] {
                    let tree = Tree::new(document, &all[from..to]).unwrap();
                    let depths: usize = tree.nodes().map(|node| node.ancestors().count()).sum();
                    let held: usize = tree.nodes().map(|node| node.descendants().count()).sum();
                    assert_eq!(depths, held);
                    for node in tree.nodes() {
                        assert!(node.decoded().unwrap().len() <= document.len());
                        assert!(node.next_siblings().count() <= tree.nodes().count());
                        assert!(
                            tree.node_at(node.bytes().start).is_some() || node.text().is_empty()
                        );
                    }
                }
            }
        }
    }

    /// What no document has.
    #[test]
    fn odd_spans_are_none() {
        use Name::{CharacterReference, HeadingAtx, HeadingAtxSequence, HeadingSetext};
        let sevens = [
            ('+', HeadingAtx, 0),
            ('+', HeadingAtxSequence, 0),
            ('-', HeadingAtxSequence, 7),
            ('-', HeadingAtx, 7),
            ('+', HeadingSetext, 7),
            ('-', HeadingSetext, 7),
        ];
        let list = events(&sevens);
        let tree = Tree::new("#######", &list).unwrap();
        assert!(tree.nodes().all(|node| node.heading_level().is_none()));
        for odd in ["&", "&;", "&#;", "&#x;", "&#+1;", "&no;", "\u{7f}", ""] {
            let whole = [
                ('+', CharacterReference, 0),
                ('-', CharacterReference, odd.len()),
            ];
            let list = events(&whole);
            let tree = Tree::new(odd, &list).unwrap();
            let node = tree.nodes().next().unwrap();
            assert_eq!(node.decoded().unwrap(), odd.as_bytes());
        }
    }
}
