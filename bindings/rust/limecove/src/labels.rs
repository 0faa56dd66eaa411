//! Labels: what one is, how they are compared, and what links and images by reference refer to.

use crate::reading::assert_version;
use crate::tree::{Text, Tree};
use crate::{Error, Name, Node};

/// The labels that a tree defines: of each the first definition, by the label and the index of its span, in the order of labels.
#[derive(Clone, Debug, Default)]
pub(crate) struct Labels(Vec<(Vec<u8>, usize)>);

impl Labels {
    /// Those of a tree.
    pub(crate) fn of(tree: &Tree<'_>) -> Result<Labels, Error> {
        let mut found = Vec::new();
        for (index, node) in tree.nodes().enumerate() {
            let label = match node.name() {
                Name::Definition => node.normalized_label()?,
                _ => None,
            };
            if let Some(label) = label {
                found.try_reserve(1).map_err(|_| Error::OutOfMemory)?;
                found.push((label, index));
            }
        }
        // by label, and then by place
        found.sort_unstable();
        found.dedup_by(|later, first| later.0 == first.0);
        Ok(Labels(found))
    }

    /// The index of the span that defines a label.
    fn get(&self, label: &[u8]) -> Option<usize> {
        let found = self.0.binary_search_by(|(known, _)| known[..].cmp(label));
        found.ok().map(|at| self.0[at].1)
    }
}

impl<'a> Node<'a> {
    /// The definition that a link or an image refers to: the first one of its label. `None` if it has a resource, as `(b)` in `[a](b)`,
    /// is no link or image, or nothing in this tree defines its label, or something before it in the document does: [`link`](Node::link) also goes
    /// to what [other sections](Tree::with_definitions) define.
    ///
    /// Its label is what is in the brackets behind it, or else in its own. Two labels are the same also if they differ in how much white space
    /// is in them, or in lower and upper case. It takes time in proportion to the label, and a logarithm to look it up.
    ///
    /// ```
    /// use limecove::{Name, Options, Tree};
    ///
    /// let tree = Tree::read("[a][B]\n\n[b]: c 'd'", &Options::default())?;
    /// let link = tree.nodes().find(|node| node.name() == Name::Link).unwrap();
    /// assert_eq!(link.definition()?.unwrap().text(), b"[b]: c 'd'");
    /// assert_eq!(link.link()?.unwrap().destination, b"c");
    /// # Ok::<(), limecove::Error>(())
    /// ```
    ///
    /// # Errors
    ///
    /// If it runs out of memory.
    pub fn definition(&self) -> Result<Option<Node<'a>>, Error> {
        let tree = self.tree();
        if !matches!(self.name(), Name::Link | Name::Image) {
            return Ok(None);
        }
        let label = match self.normalized_label()? {
            Some(label) => label,
            None => return Ok(None),
        };
        Ok(match tree.known {
            Some(known) => {
                let first = known.find(&label);
                first.and_then(|it| tree.definition_at(it.bytes.start))
            }
            None => tree.labels.get(&label).map(|index| tree.node(index)),
        })
    }

    /// What is between the brackets of a label: of a definition, or of a link or an image by reference, whose label is in the brackets behind it, or
    /// else in its own. `None` if it is none of these.
    ///
    /// ```
    /// use limecove::{Options, Tree};
    ///
    /// let tree = Tree::read("[a][b] ![c][] [d](e)\n\n[B]: f\n[c]: g", &Options::default())?;
    /// let labels = tree.nodes().filter_map(|node| node.label());
    /// assert!(labels.map(|label| label.text()).eq([b"b", b"c", b"B", b"c"]));
    /// # Ok::<(), limecove::Error>(())
    /// ```
    pub fn label(&self) -> Option<Node<'a>> {
        match self.name() {
            Name::Definition => self
                .child(Name::DefinitionLabel)?
                .child(Name::DefinitionLabelString),
            Name::Link | Name::Image if self.child(Name::Resource).is_none() => {
                let behind = self.child(Name::Reference);
                let behind = behind.and_then(|it| it.child(Name::ReferenceString));
                behind.or_else(|| self.child(Name::Label)?.child(Name::LabelText))
            }
            _ => None,
        }
    }

    /// The [`label`](Node::label) in the form by which labels are compared, as [`normalized_label`]: without the marks of quotes in it.
    ///
    /// ```
    /// use limecove::{Options, Tree};
    ///
    /// let tree = Tree::read("> [a\n> Straße]: b", &Options::default())?;
    /// let labels: Result<Vec<_>, _> = tree.nodes().map(|node| node.normalized_label()).collect();
    /// assert!(labels?.into_iter().flatten().eq([b"A STRASSE"]));
    /// # Ok::<(), limecove::Error>(())
    /// ```
    ///
    /// # Errors
    ///
    /// If it runs out of memory.
    pub fn normalized_label(&self) -> Result<Option<Vec<u8>>, Error> {
        let label = match self.label() {
            Some(label) => label,
            None => return Ok(None),
        };
        let mut written = Text::new();
        written.add_written(&label)?;
        normalized_label(written.into_bytes()).map(Some)
    }
}

/// A label in the form by which labels are compared: each run of white space is a space, none is at an end, and letters are in lower and then in
/// upper case, but for `ı`, and NUL is U+FFFD. Of bytes that are no UTF-8 only ASCII letters change.
///
/// ```
/// assert_eq!(limecove::normalized_label(b" foo\tBar")?, b"FOO BAR");
/// assert_eq!(limecove::normalized_label("ẞ")?, limecove::normalized_label("ss")?);
/// # Ok::<(), limecove::Error>(())
/// ```
///
/// # Errors
///
/// If it runs out of memory.
///
/// # Panics
///
/// As [`is_label`].
pub fn normalized_label(label: impl AsRef<[u8]>) -> Result<Vec<u8>, Error> {
    assert_version();
    let label = label.as_ref();
    let mut normal = Vec::new();
    // room for the form of most labels, so that it is made once
    let mut room = label.len();
    loop {
        let got = normal.try_reserve_exact(room);
        got.map_err(|_| Error::OutOfMemory)?;
        room = normal.capacity();
        // SAFETY: the version was asked. Pointers and lengths are those of a reference that lives for the call, and of room for that many.
        let answer = unsafe {
            limecove_sys::limecove_normalized_label(
                label.as_ptr(),
                label.len(),
                normal.as_mut_ptr(),
                room,
            )
        };
        if answer.code != limecove_sys::READ {
            return Err(Error::OutOfMemory);
        }
        if answer.count <= room {
            // SAFETY: that many were written.
            unsafe { normal.set_len(answer.count) };
            return Ok(normal);
        }
        room = answer.count;
    }
}

/// Whether bytes may stand between the brackets of a label, as `a` does in `[a]: b`: no bracket in them that is not escaped, at most 999
/// characters, and not only white space. If they have no line ending, they are then the label of a definition.
///
/// ```
/// assert!(limecove::is_label("a \\] b"));
/// assert!(!limecove::is_label("a ] b") && !limecove::is_label(" "));
/// ```
///
/// # Panics
///
/// If the library that is linked has another version. Nothing has been read or written then.
pub fn is_label(bytes: impl AsRef<[u8]>) -> bool {
    assert_version();
    let bytes = bytes.as_ref();
    // SAFETY: the version was asked. The bytes live for the call.
    unsafe { limecove_sys::limecove_is_label(bytes.as_ptr(), bytes.len()) == 1 }
}

#[cfg(test)]
mod tests {
    use super::*;
    use crate::event::tests::event;
    use crate::{Event, Kind};
    use std::ops::Range;

    /// The events of spans in the order of their starts: each is in those before it that cover it.
    fn events(of: &[(Name, Range<usize>)]) -> Vec<Event> {
        let (mut all, mut open) = (Vec::new(), Vec::<(Name, usize)>::new());
        let ends = std::iter::once((Name::Paragraph, usize::MAX..usize::MAX));
        for (name, range) in of.iter().cloned().chain(ends) {
            while let Some(&(inner, end)) = open.last().filter(|(_, end)| *end < range.end) {
                all.push(event(Kind::Exit, inner, end));
                open.pop();
            }
            if range.start < usize::MAX {
                all.push(event(Kind::Enter, name, range.start));
                open.push((name, range.end));
            }
        }
        all
    }

    /// The three forms of references, one to nothing, and two definitions of one label, of which the first is meant.
    #[test]
    fn references_go_where_their_definitions_say() {
        let document =
            "[Foo  bar]: </u&amp;> 't'\n[FOO BAR]: /v\n\n[x][foo\tBAR] ![FoO Bar][] [fOo bar] [no]";
        let span = |name, text: &str| {
            let from = document.find(text).unwrap();
            (name, from..from + text.len())
        };
        let list = events(&[
            span(Name::Definition, "[Foo  bar]: </u&amp;> 't'"),
            span(Name::DefinitionLabel, "[Foo  bar]"),
            span(Name::DefinitionLabelString, "Foo  bar"),
            span(Name::Data, "Foo  bar"),
            span(Name::DefinitionDestination, "</u&amp;>"),
            span(Name::DefinitionDestinationLiteral, "</u&amp;>"),
            span(Name::DefinitionDestinationString, "/u&amp;"),
            span(Name::Data, "/u&amp;"),
            span(Name::DefinitionTitle, "'t'"),
            span(Name::DefinitionTitleString, "t"),
            span(Name::Data, "t"),
            span(Name::Definition, "[FOO BAR]: /v"),
            span(Name::DefinitionLabel, "[FOO BAR]"),
            span(Name::DefinitionLabelString, "FOO BAR"),
            span(Name::Data, "FOO BAR"),
            span(Name::Link, "[x][foo\tBAR]"),
            span(Name::Label, "[x]"),
            span(Name::LabelText, "x"),
            span(Name::Reference, "[foo\tBAR]"),
            span(Name::ReferenceString, "foo\tBAR"),
            span(Name::Data, "foo\tBAR"),
            span(Name::Image, "![FoO Bar][]"),
            span(Name::Label, "![FoO Bar]"),
            span(Name::LabelText, "FoO Bar"),
            span(Name::Data, "FoO Bar"),
            span(Name::Reference, "[]"),
            span(Name::Link, "[fOo bar]"),
            span(Name::Label, "[fOo bar]"),
            span(Name::LabelText, "fOo bar"),
            span(Name::Data, "fOo bar"),
            span(Name::Link, "[no]"),
            span(Name::Label, "[no]"),
            span(Name::LabelText, "no"),
            span(Name::Data, "no"),
        ]);
        let tree = Tree::new(document, &list).unwrap();
        let is_link = |node: &Node<'_>| matches!(node.name(), Name::Link | Name::Image);
        let links: Vec<_> = tree.nodes().filter(is_link).collect();
        assert_eq!(links.len(), 4);
        for link in &links[..3] {
            let target = link.link().unwrap().unwrap();
            assert_eq!(target.destination, b"/u&");
            assert_eq!(target.title.as_deref(), Some(&b"t"[..]));
            assert_eq!(target.definition.unwrap().bytes().start, 0);
            assert_eq!(target.label.unwrap().name(), Name::LabelText);
        }
        assert!(links[3].link().unwrap().is_none());
        assert!(tree.node(0).definition().unwrap().is_none());
    }

    #[test]
    fn labels_are_compared_without_case_and_white_space() {
        for (one, other) in [
            ("Foo", "fOO"),
            (" a \t\r\n b ", "A B"),
            ("\u{1e9e}", "SS"),
            (
                "\u{3b1}\u{3c3} \u{3b1}\u{3c2}",
                "\u{391}\u{3a3} \u{391}\u{3a3}",
            ),
            ("\u{df}", "ss"),
        ] {
            assert_eq!(
                normalized_label(one.as_bytes()),
                normalized_label(other.as_bytes()),
                "{}",
                one
            );
        }
        assert_ne!(normalized_label(b"a b"), normalized_label(b"ab"));
        assert_ne!(
            normalized_label("a\u{a0}b".as_bytes()),
            normalized_label(b"a b")
        );
        assert_eq!(
            normalized_label(b"\xffa\xc3\xa9").unwrap(),
            b"\xffA\xc3\xa9"
        );
    }
}
