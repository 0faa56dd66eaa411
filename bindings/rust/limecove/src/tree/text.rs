//! Text as a reader has it: what is added span by span.

use super::Node;
use crate::references::{character_reference, numeric};
use crate::{Error, Name, Span, TextOptions};
use limecove_sys::{CHARACTER_ESCAPE, CHARACTER_REFERENCE};
use std::str;

/// Text that is decoded. What it adds fails if memory runs out.
pub(crate) struct Text(Vec<u8>);

impl Text {
    pub(crate) fn new() -> Text {
        Text(Vec::new())
    }

    pub(crate) fn into_bytes(self) -> Vec<u8> {
        self.0
    }

    pub(crate) fn add_bytes(&mut self, bytes: &[u8]) -> Result<(), Error> {
        let got = self.0.try_reserve(bytes.len());
        got.map_err(|_| Error::OutOfMemory)?;
        self.0.extend_from_slice(bytes);
        Ok(())
    }

    /// Adds text of a document: NUL is U+FFFD.
    pub(crate) fn add_text(&mut self, text: &[u8]) -> Result<(), Error> {
        for (at, part) in text.split(|byte| *byte == 0).enumerate() {
            if at > 0 {
                self.add_bytes("\u{fffd}".as_bytes())?;
            }
            self.add_bytes(part)?;
        }
        Ok(())
    }

    /// Adds the text of all that is in a span.
    pub(super) fn add_nodes(&mut self, of: &Node<'_>) -> Result<(), Error> {
        let mut nodes = of.descendants();
        while let Some(node) = nodes.next() {
            if self.add_leaf(&node)? {
                nodes.range.start = node.place().behind;
            }
        }
        Ok(())
    }

    /// Adds the bytes of a span as they are written, without the marks of quotes that its lines begin with.
    pub(crate) fn add_written(&mut self, of: &Node<'_>) -> Result<(), Error> {
        for node in of.descendants() {
            let is_leaf = node.children().next().is_none();
            if is_leaf && node.name() != Name::BlockQuoteMarker {
                self.add_bytes(node.text())?;
            }
        }
        Ok(())
    }

    /// Adds the text of a span.
    pub(super) fn add_node(&mut self, node: &Node<'_>) -> Result<(), Error> {
        match self.add_leaf(node)? {
            true => Ok(()),
            false => self.add_nodes(node),
        }
    }

    /// Adds the text of a span. Returns false, and adds nothing, if its text is that of what is in it.
    fn add_leaf(&mut self, node: &Node<'_>) -> Result<bool, Error> {
        match node.name() {
            Name::Data
            | Name::CharacterEscapeValue
            | Name::AutolinkProtocol
            | Name::AutolinkEmail
            | Name::GfmAutolinkLiteralEmail
            | Name::GfmAutolinkLiteralMailto
            | Name::GfmAutolinkLiteralProtocol
            | Name::GfmAutolinkLiteralWww
            | Name::GfmAutolinkLiteralXmpp
            | Name::CodeTextData => self.add_text(node.text())?,
            Name::CodeFlowChunk => self.add_cut(node)?,
            Name::LineEnding | Name::BlankLineEnding => self.add_bytes(b"\n")?,
            Name::CharacterReference => self.add_reference(node)?,
            Name::CodeText => self.add_code_text(node)?,
            Name::CodeFenced | Name::CodeIndented => self.add_code(node)?,
            Name::HeadingSetext => {
                if let Some(text) = node.child(Name::HeadingSetextText) {
                    self.add_nodes(&text)?;
                }
            }
            Name::HtmlText
            | Name::HtmlFlow
            | Name::CodeFencedFence
            | Name::Resource
            | Name::Reference
            | Name::Definition => {}
            _ => return Ok(false),
        }
        Ok(true)
    }

    /// Adds the characters of a reference. If there are none, the reference as it stands.
    fn add_reference(&mut self, reference: &Node<'_>) -> Result<(), Error> {
        let whole = str::from_utf8(reference.text()).unwrap_or_default();
        let inner = whole.strip_prefix('&').and_then(|it| it.strip_suffix(';'));
        let inner = inner.unwrap_or_default();
        match inner.strip_prefix('#') {
            Some(digits) => match numeric(digits) {
                Some(character) => self.add_bytes(character.encode_utf8(&mut [0; 4]).as_bytes()),
                None => self.add_text(reference.text()),
            },
            None => match character_reference(inner) {
                Some(characters) => self.add_bytes(characters.as_bytes()),
                None => self.add_text(reference.text()),
            },
        }
    }

    /// Adds a destination or a title: its lines, without the white space with which a further line begins.
    pub(crate) fn add_string(&mut self, string: Option<Node<'_>>) -> Result<(), Error> {
        for part in string.iter().flat_map(Node::children) {
            match part.name() {
                Name::Data => self.add_unescaped(part.text(), &part.tree.text)?,
                Name::LineEnding | Name::CharacterEscape | Name::CharacterReference => {
                    self.add_node(&part)?;
                }
                // a prefix of a line, or its white space
                _ => {}
            }
        }
        Ok(())
    }

    /// Adds text in which escapes and references are no spans, with what those stand for that are on.
    fn add_unescaped(&mut self, mut text: &[u8], options: &TextOptions) -> Result<(), Error> {
        while let Some(at) = text.iter().position(|byte| matches!(byte, b'\\' | b'&')) {
            self.add_text(&text[..at])?;
            text = &text[at..];
            let is_on = |bit| options.constructs & bit != 0;
            let size = match text {
                [b'\\', mark, ..] if mark.is_ascii_punctuation() && is_on(CHARACTER_ESCAPE) => {
                    self.add_bytes(&[*mark])?;
                    2
                }
                [b'&', ..] if is_on(CHARACTER_REFERENCE) => self.add_first_reference(text)?,
                _ => 0,
            };
            if size == 0 {
                self.add_bytes(&text[..1])?;
            }
            text = &text[size.max(1)..];
        }
        self.add_text(text)
    }

    /// Adds the characters of the reference that text begins with. Returns its size: 0 if there is none.
    fn add_first_reference(&mut self, text: &[u8]) -> Result<usize, Error> {
        // the longest name has 31 bytes
        let near = &text[1..text.len().min(34)];
        let end = near.iter().position(|byte| *byte == b';');
        let inner = match end.and_then(|end| str::from_utf8(&near[..end]).ok()) {
            Some(inner) => inner,
            None => return Ok(0),
        };
        let mut room = [0; 4];
        let characters = match inner.strip_prefix('#') {
            // seven digits, or an x and six
            Some(digits) if digits.len() <= 7 => {
                numeric(digits).map(|character| &*character.encode_utf8(&mut room))
            }
            Some(_) => None,
            None => character_reference(inner),
        };
        self.add_bytes(characters.unwrap_or_default().as_bytes())?;
        Ok(characters.map_or(0, |_| inner.len() + 2))
    }

    /// Adds the text of a code span: line endings are spaces, blanks at the start of a line are none of it, and a space at both ends
    /// neither, if there is more than spaces.
    fn add_code_text(&mut self, code: &Node<'_>) -> Result<(), Error> {
        let from = self.0.len();
        for part in code.children() {
            match part.name() {
                Name::LineEnding => self.add_bytes(b" ")?,
                Name::CodeTextData => self.add_text(part.text())?,
                // a prefix of a line, or its white space
                _ => {}
            }
        }
        let text = &self.0[from..];
        if text.len() > 1
            && (text[0], text[text.len() - 1]) == (b' ', b' ')
            && text.iter().any(|byte| *byte != b' ')
        {
            self.0.pop();
            self.0.remove(from);
        }
        Ok(())
    }

    /// Adds the lines of a block of code, each with a line ending. The last line is one too if only white space of it is there, which is none
    /// of the code, unless it is that of the closing fence.
    fn add_code(&mut self, code: &Node<'_>) -> Result<(), Error> {
        let (mut is_open, mut has_begun) = (code.name() == Name::CodeIndented, false);
        for part in code.children() {
            match part.name() {
                // the end of the line of the opening fence
                Name::LineEnding if !is_open => is_open = true,
                Name::LineEnding => {
                    self.add_bytes(b"\n")?;
                    has_begun = false;
                }
                name => {
                    self.add_leaf(&part)?;
                    has_begun = is_open && name != Name::CodeFencedFence;
                }
            }
        }
        match has_begun {
            true => self.add_bytes(b"\n"),
            false => Ok(()),
        }
    }

    /// Adds the bytes of a span, with spaces for the columns of a tab that it begins or ends in.
    pub(super) fn add_cut(&mut self, node: &Node<'_>) -> Result<(), Error> {
        let (Span { start, end, .. }, size) = (node.span(), node.tree.text.tab_size.get());
        if start.index == end.index {
            return self.add_spaces(end.vs.saturating_sub(start.vs));
        }
        let mut text = node.text();
        if start.vs > 0 {
            self.add_spaces(size - start.column.saturating_sub(1) % size)?;
            text = text.get(1..).unwrap_or_default();
        }
        self.add_text(text)?;
        self.add_spaces(end.vs)
    }

    fn add_spaces(&mut self, count: usize) -> Result<(), Error> {
        (0..count).try_for_each(|_| self.add_bytes(b" "))
    }

    /// Removes blanks at the end.
    pub(super) fn trim_end(&mut self) {
        while let Some(b' ' | b'\t') = self.0.last() {
            self.0.pop();
        }
    }
}
