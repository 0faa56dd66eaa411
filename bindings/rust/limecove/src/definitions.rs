//! The definitions of a document that is edited.

use crate::tree::{Text, Tree};
use crate::{normalized_label, Changed, Document, Error, Name};
use std::ops::Range;

/// A link reference definition.
#[derive(Clone, Debug, PartialEq, Eq, Hash)]
#[non_exhaustive]
pub struct Definition {
    /// The label in the form by which labels are compared, as [`normalized_label`] has it.
    pub label: Vec<u8>,
    /// The bytes of the document that it covers.
    pub bytes: Range<usize>,
    /// The destination, with what escapes and references stand for, as [`Target`](crate::Target) has it.
    pub destination: Vec<u8>,
    /// The title, if there is one, with what escapes and references stand for.
    pub title: Option<Vec<u8>>,
}

/// The definitions of a whole document: so links by reference in a tree of a section of it go where another section says. They are made once, and
/// [updated](Definitions::update) after each edit.
///
/// ```
/// use limecove::{Definitions, Document, Name, Options};
///
/// let mut document = Document::new("[a]\n\n# b\n\n[A]: c\n", &Options::default())?;
/// let mut definitions = Definitions::of_document(&document)?;
/// let goes_to = |document: &Document, definitions: &Definitions| -> Result<_, limecove::Error> {
///     let tree = document.tree(0..1, definitions)?;
///     let link = tree.nodes().find(|node| node.name() == Name::Link).unwrap();
///     let target = link.link()?.unwrap();
///     Ok(target.destination)
/// };
/// assert_eq!(goes_to(&document, &definitions)?, b"c");
/// let change = document.replace(15..16, "d")?;
/// definitions.update(&document, &change)?;
/// assert_eq!(goes_to(&document, &definitions)?, b"d");
/// # Ok::<(), limecove::Error>(())
/// ```
#[derive(Clone, Debug, Default, PartialEq, Eq)]
pub struct Definitions {
    /// All of them, by label and then by place.
    all: Vec<Definition>,
}

impl Definitions {
    /// Those of a document.
    ///
    /// # Errors
    ///
    /// If it runs out of memory.
    pub fn of_document(document: &Document) -> Result<Definitions, Error> {
        Definitions::in_sections(document, 0..document.sections())
    }

    /// Those of a tree.
    ///
    /// # Errors
    ///
    /// If it runs out of memory.
    pub fn of(tree: &Tree<'_>) -> Result<Definitions, Error> {
        let mut all = Vec::new();
        for node in tree.nodes() {
            if node.name() != Name::Definition {
                continue;
            }
            if let (Some(label), Some(target)) = (node.normalized_label()?, node.link()?) {
                all.try_reserve(1).map_err(|_| Error::OutOfMemory)?;
                all.push(Definition {
                    label,
                    bytes: node.bytes(),
                    destination: target.destination,
                    title: target.title,
                });
            }
        }
        let mut found = Definitions { all };
        found.sort();
        Ok(found)
    }

    /// Those of sections of a document.
    fn in_sections(document: &Document, sections: Range<usize>) -> Result<Definitions, Error> {
        let none = Definitions::default();
        let tree = document.tree(sections, &none)?;
        Definitions::of(&tree)
    }

    /// Makes them those of the document as it is now, if they were those of it before its last edit, which changed this. It takes time in proportion to
    /// the sections that were replaced, and to all definitions.
    ///
    /// # Errors
    ///
    /// If it runs out of memory. They are then as they were, so that the same can be tried again before the next edit.
    pub fn update(&mut self, document: &Document, change: &Changed) -> Result<(), Error> {
        let mut fresh = Definitions::in_sections(document, change.new_sections())?.all;
        let got = self.all.try_reserve(fresh.len());
        got.map_err(|_| Error::OutOfMemory)?;
        let (old, new) = (change.old_bytes(), change.bytes());
        self.all.retain(|it| !old.contains(&it.bytes.start));
        for Definition { bytes, .. } in &mut self.all {
            if bytes.start >= old.end {
                let moved = |at: usize| at - old.end + new.end;
                *bytes = moved(bytes.start)..moved(bytes.end);
            }
        }
        if !fresh.is_empty() {
            self.all.append(&mut fresh);
            self.sort();
        }
        Ok(())
    }

    fn sort(&mut self) {
        self.all.sort_unstable_by(|one, other| {
            (&one.label, one.bytes.start).cmp(&(&other.label, other.bytes.start))
        });
    }

    /// What defines a label: the first definition of it. The label is what is between brackets, in any form.
    ///
    /// ```
    /// use limecove::{Definitions, Options, Tree};
    ///
    /// let tree = Tree::read("[a b]: c\n[A  B]: d\n", &Options::default())?;
    /// let found = Definitions::of(&tree)?;
    /// assert_eq!(found.get(b" a\nB")?.unwrap().destination, b"c");
    /// assert_eq!((found.get(b"c")?, found.len()), (None, 2));
    /// # Ok::<(), limecove::Error>(())
    /// ```
    ///
    /// # Errors
    ///
    /// If it runs out of memory.
    ///
    /// # Panics
    ///
    /// As [`normalized_label`].
    pub fn get(&self, label: &[u8]) -> Result<Option<&Definition>, Error> {
        Ok(self.find(&normalized_label(label)?))
    }

    /// What defines a label, which is in the form by which labels are compared.
    pub(crate) fn find(&self, label: &[u8]) -> Option<&Definition> {
        let at = self.all.partition_point(|it| it.label[..] < *label);
        self.all.get(at).filter(|it| it.label == label)
    }

    /// All of them, also those whose label is defined before: by label, and those of one label by place.
    pub fn iter(&self) -> std::slice::Iter<'_, Definition> {
        self.all.iter()
    }

    /// How many there are.
    pub fn len(&self) -> usize {
        self.all.len()
    }

    /// Whether there are none.
    pub fn is_empty(&self) -> bool {
        self.all.is_empty()
    }
}

impl<'a> IntoIterator for &'a Definitions {
    type Item = &'a Definition;
    type IntoIter = std::slice::Iter<'a, Definition>;

    fn into_iter(self) -> Self::IntoIter {
        self.iter()
    }
}

/// A copy of bytes, if there is memory for it.
pub(crate) fn copied(bytes: &[u8]) -> Result<Vec<u8>, Error> {
    let mut text = Text::new();
    text.add_bytes(bytes)?;
    Ok(text.into_bytes())
}
