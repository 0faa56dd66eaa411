//! Safe calls of Limecove, a proved tokenizer engine for Markdown.
//!
//! ```
//! use limecove::{spans, tokenize, Name, Options};
//!
//! let document = "a `code` b";
//! let events = tokenize(document, &Options::default())?;
//! let code = spans(&events).find(|span| span.name == Name::CodeText).unwrap();
//! assert_eq!(code.text(document.as_bytes()), b"`code`");
//! # Ok::<(), limecove::Error>(())
//! ```
//!
//! What is read is all of CommonMark: block quotes, lists, leaf blocks (headings, code, HTML, thematic breaks, link reference definitions,
//! paragraphs), and inline text with links and images, also by reference, and emphasis.
//!
//! | For | Use | Time and memory |
//! |---|---|---|
//! | events | [`tokenize`], [`with_ranges`] | linear in the document, as measured; 56 bytes an event |
//! | a few events at a time | [`Reading`] | the list stays in the library; the same time for each event |
//! | events of a document that is edited | [`Document`] | an edit reads the sections that change, and those that a label reaches |
//! | what an edit changed in a list of events | [`differing`] | linear in the events |
//! | its sections as trees, with the labels of all of it | [`Document::tree`], [`Definitions`] | linear in the sections; to make it, in the document |
//! | it as it is now, for several threads | [`Document::snapshot`], [`Snapshot`] | a copy of its bytes and events |
//! | HTML, safe by default | [`to_html`], [`to_html_with_options`], [`to_html_bytes`] | the document is read once, and twice if the HTML is more than twice as long |
//! | spans, flat | [`spans`], [`spans_by_start`] | linear in the events, in any nesting |
//! | spans, as a tree | [`Tree`], [`Node`] | made in linear time; about 100 bytes a span |
//! | the span at a byte | [`Tree::node_at`] | a logarithm, and the depth there |
//! | what a span is | [`Node::heading_level`], [`list`](Node::list), [`link`](Node::link), [`definition`](Node::definition), [`label`](Node::label), [`is_checked`](Node::is_checked), [`alignments`](Node::alignments), [`fence_info`](Node::fence_info), [`decoded`](Node::decoded), [`last_line`](Node::last_line) | in the size of what it looks at |
//! | labels | [`normalized_label`], [`is_label`] | linear in the label |
//! | lines and columns | [`LineIndex`], both ways | made in linear time; a logarithm to look up; many [`places`](LineIndex::places) in one walk |
//!
//! The crate `limecove-sys` links `liblimecove.a`. If it is not found, set `LIMECOVE_LIB` to the folder that has it.
#![deny(missing_docs)]

mod definitions;
mod differing;
mod document;
mod event;
mod html;
mod labels;
mod lines;
mod list;
mod names;
mod reading;
mod references;
mod snapshot;
mod target;
mod tree;

/// The program of the page is tried too.
#[cfg(doctest)]
#[doc = include_str!("../README.md")]
struct Readme;

pub use crate::definitions::{Definition, Definitions};
pub use crate::differing::differing;
pub use crate::document::{Changed, Defined, Document, Encoding, Other, Place, Undefined, Why};
pub use crate::event::{
    spans, spans_by_start, with_ranges, Content, Event, Kind, Link, Point, Span, Spans, WithRanges,
};
pub use crate::html::{to_html, to_html_bytes, to_html_with_options, HtmlOptions};
pub use crate::labels::{is_label, normalized_label};
pub use crate::lines::{LineColumn, LineIndex};
pub use crate::list::{List, ListMarker};
pub use crate::names::{Machine, Name, UnknownName};
pub use crate::reading::{Iter, Reading};
pub use crate::references::character_reference;
pub use crate::snapshot::Snapshot;
pub use crate::target::Target;
pub use crate::tree::{Alignment, Node, Nodes, Tree};
use std::error;
use std::fmt;
use std::num::NonZeroUsize;
use std::ops::Range;

/// How many columns tab stops are apart: from 1 to 16.
#[derive(Clone, Copy, Debug, PartialEq, Eq, PartialOrd, Ord, Hash)]
pub struct TabSize(usize);

impl TabSize {
    /// A tab size. `None` if it is 0 or above 16.
    pub const fn new(columns: usize) -> Option<TabSize> {
        match columns {
            1..=16 => Some(TabSize(columns)),
            _ => None,
        }
    }

    /// The number of columns.
    pub const fn get(self) -> usize {
        self.0
    }
}

impl Default for TabSize {
    /// CommonMark's: 4.
    fn default() -> TabSize {
        TabSize(4)
    }
}

/// How text is read. The default: all constructs of CommonMark, and tab stops at every 4 columns. [`tokenize_text`] reads code spans,
/// autolinks and backslash escapes; the other constructs are read in whole documents.
///
/// ```
/// let options = limecove::TextOptions::default().autolink(false);
/// let events = limecove::tokenize_text("<ab:c>", &options)?;
/// assert!(events.iter().all(|event| event.name() == limecove::Name::Data));
/// # Ok::<(), limecove::Error>(())
/// ```
#[derive(Clone, Copy, Debug, PartialEq, Eq, Hash)]
pub struct TextOptions {
    tab_size: TabSize,
    constructs: u64,
}

impl Default for TextOptions {
    fn default() -> TextOptions {
        TextOptions {
            tab_size: TabSize::default(),
            constructs: limecove_sys::COMMONMARK & !BLOCKS,
        }
    }
}

/// The constructs of blocks.
const BLOCKS: u64 = limecove_sys::BLOCK_QUOTE
    | limecove_sys::CODE_FENCED
    | limecove_sys::CODE_INDENTED
    | limecove_sys::DEFINITION
    | limecove_sys::HEADING_ATX
    | limecove_sys::HEADING_SETEXT
    | limecove_sys::HTML_FLOW
    | limecove_sys::LIST_ITEM
    | limecove_sys::THEMATIC_BREAK;

impl TextOptions {
    /// The same, with tab stops so many columns apart.
    #[must_use]
    pub const fn tab_size(mut self, tab_size: TabSize) -> TextOptions {
        self.tab_size = tab_size;
        self
    }

    /// The same, with or without code spans.
    #[must_use]
    pub const fn code_text(self, is_on: bool) -> TextOptions {
        self.with(limecove_sys::CODE_TEXT, is_on)
    }

    /// The same, with or without autolinks.
    #[must_use]
    pub const fn autolink(self, is_on: bool) -> TextOptions {
        self.with(limecove_sys::AUTOLINK, is_on)
    }

    /// The same, with or without backslash escapes.
    #[must_use]
    pub const fn character_escape(self, is_on: bool) -> TextOptions {
        self.with(limecove_sys::CHARACTER_ESCAPE, is_on)
    }

    /// The same, with or without emphasis.
    #[must_use]
    pub const fn attention(self, is_on: bool) -> TextOptions {
        self.with(limecove_sys::ATTENTION, is_on)
    }

    /// The same, with or without strikethrough of GFM. The default is without.
    ///
    /// ```
    /// use limecove::{tokenize, Name, Options, TextOptions};
    ///
    /// let options = Options::default().text(TextOptions::default().gfm_strikethrough(true));
    /// let events = tokenize("~~a~~", &options)?;
    /// assert!(events.iter().any(|event| event.name() == Name::GfmStrikethrough));
    /// # Ok::<(), limecove::Error>(())
    /// ```
    #[must_use]
    pub const fn gfm_strikethrough(self, is_on: bool) -> TextOptions {
        self.with(limecove_sys::GFM_STRIKETHROUGH, is_on)
    }

    /// The same, with or without character references.
    #[must_use]
    pub const fn character_reference(self, is_on: bool) -> TextOptions {
        self.with(limecove_sys::CHARACTER_REFERENCE, is_on)
    }

    /// The same, with or without hard breaks by a backslash.
    #[must_use]
    pub const fn hard_break_escape(self, is_on: bool) -> TextOptions {
        self.with(limecove_sys::HARD_BREAK_ESCAPE, is_on)
    }

    /// The same, with or without hard breaks by spaces.
    #[must_use]
    pub const fn hard_break_trailing(self, is_on: bool) -> TextOptions {
        self.with(limecove_sys::HARD_BREAK_TRAILING, is_on)
    }

    /// The same, with or without raw HTML.
    #[must_use]
    pub const fn html_text(self, is_on: bool) -> TextOptions {
        self.with(limecove_sys::HTML_TEXT, is_on)
    }

    /// The same, with or without starts of link labels: without them there are no links.
    #[must_use]
    pub const fn label_start_link(self, is_on: bool) -> TextOptions {
        self.with(limecove_sys::LABEL_START_LINK, is_on)
    }

    /// The same, with or without starts of image labels: without them there are no images.
    #[must_use]
    pub const fn label_start_image(self, is_on: bool) -> TextOptions {
        self.with(limecove_sys::LABEL_START_IMAGE, is_on)
    }

    /// The same, with or without ends of labels, with what follows them: without them there are no links and no images.
    #[must_use]
    pub const fn label_end(self, is_on: bool) -> TextOptions {
        self.with(limecove_sys::LABEL_END, is_on)
    }

    /// The same, with a construct on or off.
    const fn with(mut self, bit: u64, is_on: bool) -> TextOptions {
        self.constructs = if is_on {
            self.constructs | bit
        } else {
            self.constructs & !bit
        };
        self
    }
}

/// How a document is read. The default: all of it, by [`Machine::Document`], and the inline text in its blocks.
///
/// ```
/// use limecove::{tokenize, Machine, Options};
///
/// let events = tokenize("- a", &Options::default())?;
/// assert_eq!(events[1].to_string(), "enter ListItem 1:1 (0+0)");
/// for options in [Options::default().list_item(false), Options::default().machine(Machine::Flow)] {
///     let events = tokenize("- a", &options)?;
///     assert_eq!(events[0].to_string(), "enter Paragraph 1:1 (0+0)");
/// }
/// # Ok::<(), limecove::Error>(())
/// ```
#[derive(Clone, Copy, Debug, PartialEq, Eq, Hash)]
pub struct Options {
    machine: Machine,
    deep: bool,
    cut: Option<NonZeroUsize>,
    blocks: u64,
    /// The constructs that only whole documents have, with their texts.
    extensions: u64,
    text: TextOptions,
}

impl Default for Options {
    fn default() -> Options {
        Options {
            machine: Machine::default(),
            deep: true,
            cut: None,
            blocks: BLOCKS,
            extensions: 0,
            text: TextOptions::default(),
        }
    }
}

impl Options {
    /// The same, read by a machine.
    #[must_use]
    pub const fn machine(mut self, machine: Machine) -> Options {
        self.machine = machine;
        self
    }

    /// The same, with or without reading the chunks of text that the machine links. If it links none, it makes no difference.
    #[must_use]
    pub const fn deep(mut self, is_deep: bool) -> Options {
        self.deep = is_deep;
        self
    }

    /// The same, with the document cut after so many virtual bytes each time, or not cut. It changes no event.
    #[must_use]
    pub const fn cut(mut self, cut: Option<NonZeroUsize>) -> Options {
        self.cut = cut;
        self
    }

    /// The same, with texts read so. The size of tabs is that of each machine.
    #[must_use]
    pub const fn text(mut self, text: TextOptions) -> Options {
        self.text = text;
        self
    }

    /// The same, with or without block quotes.
    #[must_use]
    pub const fn block_quote(self, is_on: bool) -> Options {
        self.with(limecove_sys::BLOCK_QUOTE, is_on)
    }

    /// The same, with or without list items.
    #[must_use]
    pub const fn list_item(self, is_on: bool) -> Options {
        self.with(limecove_sys::LIST_ITEM, is_on)
    }

    /// The same, with or without link reference definitions.
    #[must_use]
    pub const fn definition(self, is_on: bool) -> Options {
        self.with(limecove_sys::DEFINITION, is_on)
    }

    /// The same, with or without fenced code.
    #[must_use]
    pub const fn code_fenced(self, is_on: bool) -> Options {
        self.with(limecove_sys::CODE_FENCED, is_on)
    }

    /// The same, with or without indented code.
    #[must_use]
    pub const fn code_indented(self, is_on: bool) -> Options {
        self.with(limecove_sys::CODE_INDENTED, is_on)
    }

    /// The same, with or without ATX headings.
    #[must_use]
    pub const fn heading_atx(self, is_on: bool) -> Options {
        self.with(limecove_sys::HEADING_ATX, is_on)
    }

    /// The same, with or without setext headings.
    #[must_use]
    pub const fn heading_setext(self, is_on: bool) -> Options {
        self.with(limecove_sys::HEADING_SETEXT, is_on)
    }

    /// The same, with or without HTML blocks.
    #[must_use]
    pub const fn html_flow(self, is_on: bool) -> Options {
        self.with(limecove_sys::HTML_FLOW, is_on)
    }

    /// The same, with or without thematic breaks.
    #[must_use]
    pub const fn thematic_break(self, is_on: bool) -> Options {
        self.with(limecove_sys::THEMATIC_BREAK, is_on)
    }

    /// The same, with or without autolink literals of GFM: `www.a.b`, `https://a.b` and `a@b.c` in a text are links. The default is without.
    ///
    /// [`Machine::Document`] finds them, if it is deep, and a [`Document`] does. If another machine reads, it makes no difference.
    ///
    /// ```
    /// use limecove::{Name, Options, Tree};
    ///
    /// let tree = Tree::read("see www.a.b.", &Options::default().gfm_autolink_literal(true))?;
    /// let literal = tree.node_at(4).unwrap();
    /// assert_eq!((literal.name(), literal.text()), (Name::GfmAutolinkLiteralWww, &b"www.a.b"[..]));
    /// assert_eq!(literal.link()?.unwrap().destination, b"http://www.a.b");
    /// # Ok::<(), limecove::Error>(())
    /// ```
    #[must_use]
    pub const fn gfm_autolink_literal(self, is_on: bool) -> Options {
        self.extended(limecove_sys::GFM_AUTOLINK_LITERAL, is_on)
    }

    /// The same, with or without task list items of GFM: `[ ]` and `[x]` in front of an item are checks. The default is without. It makes a
    /// difference where [`gfm_autolink_literal`](Options::gfm_autolink_literal) does.
    ///
    /// ```
    /// use limecove::{Options, Tree};
    ///
    /// let tree = Tree::read("- [ ] a\n- [x] b\n- c", &Options::default().gfm_task_list_item(true))?;
    /// let list = tree.children().next().unwrap();
    /// let items = list.children().filter(|part| part.name() == limecove::Name::ListItem);
    /// let checks: Vec<_> = items.map(|item| item.is_checked()).collect();
    /// assert_eq!(checks, [Some(false), Some(true), None]);
    /// # Ok::<(), limecove::Error>(())
    /// ```
    #[must_use]
    pub const fn gfm_task_list_item(self, is_on: bool) -> Options {
        self.extended(limecove_sys::GFM_TASK_LIST_ITEM, is_on)
    }

    /// The same, with or without tables of GFM. The default is without. It makes a difference
    /// where [`gfm_autolink_literal`](Options::gfm_autolink_literal) does.
    ///
    /// ```
    /// use limecove::{Alignment, Name, Options, Tree};
    ///
    /// let tree = Tree::read("| a | b |\n|---|--:|\n| c | d |", &Options::default().gfm_table(true))?;
    /// let table = tree.children().next().unwrap();
    /// assert_eq!(table.name(), Name::GfmTable);
    /// assert_eq!(table.alignments()?, Some(vec![Alignment::None, Alignment::Right]));
    /// # Ok::<(), limecove::Error>(())
    /// ```
    #[must_use]
    pub const fn gfm_table(self, is_on: bool) -> Options {
        self.extended(limecove_sys::GFM_TABLE, is_on)
    }

    /// The same, with or without definitions of footnotes, `[^label]: ..`, as GitHub reads them. The default is without. It makes a difference
    /// where [`gfm_autolink_literal`](Options::gfm_autolink_literal) does.
    ///
    /// ```
    /// use limecove::{Name, Options, Tree};
    ///
    /// let tree = Tree::read("[^a]: b\n\n    c", &Options::default().gfm_footnote_definition(true))?;
    /// let note = tree.children().next().unwrap();
    /// assert_eq!(note.name(), Name::GfmFootnoteDefinition);
    /// # Ok::<(), limecove::Error>(())
    /// ```
    #[must_use]
    pub const fn gfm_footnote_definition(self, is_on: bool) -> Options {
        self.extended(limecove_sys::GFM_FOOTNOTE_DEFINITION, is_on)
    }

    /// The same, with or without calls of footnotes, `[^label]`: a call is one only if a footnote of its label is defined. The default is
    /// without. It makes a difference where [`gfm_autolink_literal`](Options::gfm_autolink_literal) does.
    #[must_use]
    pub const fn gfm_label_start_footnote(self, is_on: bool) -> Options {
        self.extended(limecove_sys::GFM_LABEL_START_FOOTNOTE, is_on)
    }

    /// The same, where one tilde strikes through, or two alone do. The default is that one does. It makes a difference
    /// where [`gfm_autolink_literal`](Options::gfm_autolink_literal) does, with strikethrough on.
    #[must_use]
    pub const fn gfm_strikethrough_single_tilde(self, is_on: bool) -> Options {
        self.extended(limecove_sys::GFM_STRIKETHROUGH_DOUBLE_TILDE, !is_on)
    }

    /// The bits of its constructs, as its machine takes them.
    const fn constructs(&self) -> u64 {
        let extensions = match self.machine {
            Machine::Document if self.deep => self.extensions,
            _ => 0,
        };
        self.text.constructs | self.blocks | extensions
    }

    /// The same, with a construct of blocks on or off.
    const fn with(mut self, bit: u64, is_on: bool) -> Options {
        self.blocks = if is_on {
            self.blocks | bit
        } else {
            self.blocks & !bit
        };
        self
    }

    /// The same, with an extension on or off.
    const fn extended(mut self, bit: u64, is_on: bool) -> Options {
        self.extensions = if is_on {
            self.extensions | bit
        } else {
            self.extensions & !bit
        };
        self
    }
}

impl Machine {
    /// Whether it links chunks of text, which can be read too.
    pub const fn links_text(self) -> bool {
        matches!(
            self,
            Machine::Paragraphs | Machine::Text | Machine::Flow | Machine::Document
        )
    }
}

/// Why a document was not read.
///
/// Later versions may have more of them, and more numbers in each: a `match` has an arm `_`, and a pattern ends with `..`.
///
/// ```
/// use limecove::{Document, Error, Options};
///
/// let mut document = Document::new("abc", &Options::default())?;
/// let refused = document.replace(2..4, "").unwrap_err();
/// assert!(matches!(refused, Error::NoSuchBytes { from: 2, to: 4, len: 3, .. }));
/// assert_eq!(refused.to_string(), "no such bytes: 2..4 of 3");
/// # Ok::<(), Error>(())
/// ```
#[derive(Clone, Copy, Debug, PartialEq, Eq, Hash)]
#[non_exhaustive]
pub enum Error {
    /// The call ran out of memory.
    OutOfMemory,
    /// The size of tabs times the length of the document, and one more, do not fit `usize`.
    TooLong,
    /// The ranges cannot be read as one text: [`tokenize_text_in`] says which can.
    #[non_exhaustive]
    NoSuchRanges {
        /// The index of the first range that is none, or cannot be read behind those before it.
        index: usize,
        /// Where that range begins.
        from: usize,
        /// Where it ends: the index of the byte behind it.
        to: usize,
        /// How many bytes the document has.
        len: usize,
    },
    /// The document has no such sections.
    #[non_exhaustive]
    NoSuchSections {
        /// The first section that was asked for.
        from: usize,
        /// The section behind the last.
        to: usize,
        /// How many sections the document has.
        count: usize,
    },
    /// The bytes that are to be replaced are none of the document, or those of [several edits](Document::replace_all) are not in order.
    #[non_exhaustive]
    NoSuchBytes {
        /// The index of the first of these bytes.
        from: usize,
        /// The index of the byte behind them.
        to: usize,
        /// How many bytes the document has.
        len: usize,
    },
}

impl fmt::Display for Error {
    fn fmt(&self, f: &mut fmt::Formatter<'_>) -> fmt::Result {
        match self {
            Error::OutOfMemory => f.write_str("out of memory"),
            Error::TooLong => f.write_str("document too long"),
            Error::NoSuchRanges {
                index,
                from,
                to,
                len,
            } => write!(
                f,
                "the ranges are no text: range {index} is {from}..{to} of {len}"
            ),
            Error::NoSuchSections { from, to, count } => {
                write!(f, "no such sections: {from}..{to} of {count}")
            }
            Error::NoSuchBytes { from, to, len } => {
                write!(f, "no such bytes: {from}..{to} of {len}")
            }
        }
    }
}

impl error::Error for Error {}

/// Reads a whole document with the default options, once: its blocks, and the inline text in them.
///
/// # Errors
///
/// As those of [`tokenize`].
///
/// # Panics
///
/// As [`tokenize`].
///
/// ```
/// use limecove::{read_document, spans, Name};
///
/// let document = "# a *b*\n";
/// let events = read_document(document)?;
/// let text = spans(&events).find(|span| span.name == Name::EmphasisText).unwrap();
/// assert_eq!(text.text(document.as_bytes()), b"b");
/// # Ok::<(), limecove::Error>(())
/// ```
pub fn read_document(document: impl AsRef<[u8]>) -> Result<Vec<Event>, Error> {
    tokenize(document, &Options::default())
}

/// Reads a whole document, once, as the options say. [`Reading`] is for events that are not all needed at a time.
///
/// # Errors
///
/// As [`Error`] says. That memory ran out is an error too: neither this function nor [`spans`] aborts for it.
///
/// # Panics
///
/// If the library that is linked has another version. Nothing has been read or written then.
pub fn tokenize(document: impl AsRef<[u8]>, options: &Options) -> Result<Vec<Event>, Error> {
    Reading::open(document, options)?.to_vec()
}

/// Reads a whole document as text, once, without paragraphs: code spans, autolinks and escapes, line endings, and all else as data.
///
/// # Errors
///
/// As those of [`tokenize`].
///
/// # Panics
///
/// As [`tokenize`].
///
/// ```
/// use limecove::{spans, tokenize_text, Name, TextOptions};
///
/// let events = tokenize_text("\\*", &TextOptions::default())?;
/// assert_eq!(spans(&events).last().unwrap().name, Name::CharacterEscape);
/// # Ok::<(), limecove::Error>(())
/// ```
pub fn tokenize_text(
    document: impl AsRef<[u8]>,
    options: &TextOptions,
) -> Result<Vec<Event>, Error> {
    Reading::open_text(document, options)?.to_vec()
}

/// Reads ranges of a document as one text, once. What is between them is never read. The places of events are those in the whole document.
///
/// The ranges are of bytes. Each begins where the one before it ends; or that one ends at the beginning of a line, and the next begins
/// later in the line, as behind a quote mark. The first begins anywhere. A CR LF is read where its LF is.
///
/// # Errors
///
/// As those of [`tokenize`], and [`Error::NoSuchRanges`] if the ranges are no such ranges of the document.
///
/// # Panics
///
/// As [`tokenize`].
///
/// ```
/// use limecove::{spans, tokenize_text_in, Name, TextOptions};
///
/// let document = "> a `b\n> c` d";
/// let events = tokenize_text_in(document, &[2..7, 9..13], &TextOptions::default())?;
/// let code = spans(&events).find(|span| span.name == Name::CodeText).unwrap();
/// assert_eq!(code.text(document.as_bytes()), b"`b\n> c`");
/// # Ok::<(), limecove::Error>(())
/// ```
pub fn tokenize_text_in(
    document: impl AsRef<[u8]>,
    ranges: &[Range<usize>],
    options: &TextOptions,
) -> Result<Vec<Event>, Error> {
    Reading::open_text_in(document, ranges, options)?.to_vec()
}

#[cfg(test)]
mod tests {
    use super::*;

    /// Events can be sent to other threads, and shared.
    #[test]
    fn events_are_send_and_sync() {
        fn is<T: Send + Sync>() {}
        is::<(Event, Span, Options, Error, Snapshot, Definitions, Changed)>();
    }
}
