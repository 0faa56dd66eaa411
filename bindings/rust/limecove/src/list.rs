//! What a list is: its marker, the number that it starts with, and whether it is tight.

use crate::{Name, Node, Point};

/// The marker behind which a list's items begin.
#[derive(Clone, Copy, Debug, PartialEq, Eq, PartialOrd, Ord, Hash)]
#[non_exhaustive]
pub enum ListMarker {
    /// `-`
    Dash,
    /// `+`
    Plus,
    /// `*`
    Star,
    /// `.` behind a number.
    Period,
    /// `)` behind a number.
    Parenthesis,
}

impl ListMarker {
    /// The byte as which it is written.
    pub const fn byte(self) -> u8 {
        match self {
            ListMarker::Dash => b'-',
            ListMarker::Plus => b'+',
            ListMarker::Star => b'*',
            ListMarker::Period => b'.',
            ListMarker::Parenthesis => b')',
        }
    }

    /// The marker that is written so.
    fn of(byte: u8) -> Option<ListMarker> {
        Some(match byte {
            b'-' => ListMarker::Dash,
            b'+' => ListMarker::Plus,
            b'*' => ListMarker::Star,
            b'.' => ListMarker::Period,
            b')' => ListMarker::Parenthesis,
            _ => return None,
        })
    }
}

/// What a list is, as [`Node::list`] finds it.
#[derive(Clone, Copy, Debug, PartialEq, Eq, Hash)]
#[non_exhaustive]
pub struct List {
    /// The marker of its items.
    pub marker: ListMarker,
    /// The number of its first item. `None` if it has no numbers.
    pub start: Option<u32>,
    /// No blank line is between two of its items, or between two blocks right in one: its paragraphs are shown without space around them.
    pub is_tight: bool,
}

impl List {
    /// Whether its items have numbers.
    pub const fn is_ordered(&self) -> bool {
        self.start.is_some()
    }
}

impl Node<'_> {
    /// What a list is. `None` if it is no list.
    ///
    /// It takes time in proportion to the children of the list and of its items. So to ask all lists of a document takes time in
    /// proportion to its spans, in any nesting.
    ///
    /// ```
    /// use limecove::{ListMarker, Options, Tree};
    ///
    /// let tree = Tree::read("7) a\n\n8) b", &Options::default())?;
    /// let list = tree.children().next().unwrap().list().unwrap();
    /// assert_eq!((list.marker, list.start, list.is_tight), (ListMarker::Parenthesis, Some(7), false));
    /// # Ok::<(), limecove::Error>(())
    /// ```
    pub fn list(&self) -> Option<List> {
        let is_ordered = match self.name() {
            Name::ListOrdered => true,
            Name::ListUnordered => false,
            _ => return None,
        };
        let prefix = self.child(Name::ListItem)?.child(Name::ListItemPrefix)?;
        let marker = prefix.child(Name::ListItemMarker)?.text().first();
        let start = match is_ordered {
            true => Some(number(prefix.child(Name::ListItemValue)?.text())?),
            false => None,
        };
        let is_item = |name| name == Name::ListItem;
        let mut items = self.children().filter(|child| is_item(child.name()));
        Some(List {
            marker: ListMarker::of(*marker?)?,
            start,
            is_tight: !is_apart(self, is_item)
                && !items.any(|item| is_apart(&item, Name::is_block)),
        })
    }
}

/// One to nine digits as a number.
fn number(digits: &[u8]) -> Option<u32> {
    if !(1..=9).contains(&digits.len()) {
        return None;
    }
    std::str::from_utf8(digits).ok()?.parse().ok()
}

impl Name {
    /// Whether a span of this name is a block of CommonMark. An item of a list is none: it holds blocks, and its list is one.
    ///
    /// ```
    /// use limecove::{Options, Tree};
    ///
    /// let tree = Tree::read("# a\n\n- b", &Options::default())?;
    /// let blocks = tree.nodes().filter(|node| node.name().is_block());
    /// let names: Vec<&str> = blocks.map(|node| node.name().as_str()).collect();
    /// assert_eq!(names, ["HeadingAtx", "ListUnordered", "Paragraph"]);
    /// # Ok::<(), limecove::Error>(())
    /// ```
    pub const fn is_block(self) -> bool {
        matches!(
            self,
            Name::BlockQuote
                | Name::ListOrdered
                | Name::ListUnordered
                | Name::Paragraph
                | Name::HeadingAtx
                | Name::HeadingSetext
                | Name::CodeIndented
                | Name::CodeFenced
                | Name::HtmlFlow
                | Name::ThematicBreak
                | Name::Definition
        )
    }
}

/// Whether a blank line is between two parts right in a span. The ending of the line in which a part ends is that of no blank line.
fn is_apart(of: &Node<'_>, is_part: impl Fn(Name) -> bool) -> bool {
    let (mut ended, mut is_blank) = (None::<Point>, false);
    for child in of.children() {
        if is_part(child.name()) {
            if is_blank {
                return true;
            }
            ended = Some(child.span().end);
        } else if child.name() == Name::BlankLineEnding {
            let line = child.span().start.line;
            is_blank |= ended.map_or(false, |end| end.line < line || end.column == 1);
        }
    }
    false
}
