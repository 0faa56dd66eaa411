//! A document that can be edited.

use crate::definitions::copied;
use crate::reading::assert_version;
use crate::tree::Text;
use crate::{Definitions, Error, Event, Options, Snapshot, TextOptions, Tree};
use limecove_sys::{ByteRange, Record, NO_DOCUMENT};
use std::cell::UnsafeCell;
use std::fmt;
use std::mem::size_of;
use std::ops::Range;

/// A document that can be edited, in the library's memory. It is given back when this is dropped. Its bytes are kept beside it.
///
/// It is cut into sections, which are numbered from 0. An edit reads the sections that it changes anew, and those that ask for a label that
/// came or went; all others keep their events. After each edit the events are those that reading the edited bytes anew would give.
///
/// ```
/// use limecove::{Document, Name, Options};
///
/// let mut document = Document::new("# a\n\nb\n", &Options::default())?;
/// let change = document.replace(5..5, "- ")?;
/// let events = document.events_in(change.new_sections())?;
/// assert!(events.iter().any(|event| event.name() == Name::ListItem));
/// assert_eq!(document.len(), 9);
/// # Ok::<(), limecove::Error>(())
/// ```
///
/// It can be sent to another thread, and is shared by several only behind a lock.
///
/// ```
/// fn is_send<T: Send>() {}
/// is_send::<limecove::Document>();
/// ```
///
/// ```compile_fail
/// fn is_sync<T: Sync>() {}
/// is_sync::<limecove::Document>();
/// ```
pub struct Document {
    /// What a call of the library left. Each call takes the document out of it and puts it back, and no reference to what is in it
    /// outlives a call.
    document: UnsafeCell<limecove_sys::Document>,
    /// Its bytes, as the library has them too.
    bytes: Vec<u8>,
    /// How its text is read.
    text: TextOptions,
    sections: usize,
    /// To how many others the last edit gave other events.
    others: usize,
}

// SAFETY: as of a reading: it is a number and a pointer to memory of `malloc`, of which nothing else has a pointer. It is not `Sync`.
unsafe impl Send for Document {}

/// What an edit changed. Sections in front of the replaced ones and behind them have the bytes that they had. What is behind them has moved by as
/// much as the end of the replaced ones: in bytes from that of [`old_bytes`](Changed::old_bytes) to that of [`bytes`](Changed::bytes), in lines from that
/// of [`old_lines`](Changed::old_lines) to that of [`new_lines`](Changed::new_lines).
///
/// ```
/// use limecove::{Document, Options};
///
/// let mut document = Document::new("# a\n\nb\n\n# c\n", &Options::default())?;
/// let change = document.replace(6..6, "\nd\ne")?;
/// assert_eq!((change.old_bytes(), change.bytes()), (5..8, 5..12));
/// assert_eq!((change.old_lines(), change.new_lines()), (2..4, 2..6));
/// # Ok::<(), limecove::Error>(())
/// ```
#[derive(Clone, Copy, Debug, PartialEq, Eq)]
pub struct Changed {
    change: limecove_sys::Changed,
    /// Where the replaced sections ended, in the document as it was.
    old_end: usize,
    /// The line in which both start.
    line: usize,
    /// How many line endings the replaced sections had, and the new ones have.
    endings: (usize, usize),
}

impl Changed {
    /// The sections that were replaced, as sections were numbered before.
    pub const fn old_sections(&self) -> Range<usize> {
        self.change.from..self.change.old_to
    }

    /// The sections in their place, as sections are numbered now.
    pub const fn new_sections(&self) -> Range<usize> {
        self.change.from..self.change.new_to
    }

    /// The bytes of the new sections, in the document as it is now.
    pub const fn bytes(&self) -> Range<usize> {
        self.change.start..self.change.end
    }

    /// The bytes of the replaced sections, in the document as it was.
    pub const fn old_bytes(&self) -> Range<usize> {
        self.change.start..self.old_end
    }

    /// The lines of the replaced sections, from 0, as lines were numbered before: from that in which they started up to that in which what was
    /// behind them did. The document's last line is none of these if it ended in them, as it has no line ending.
    pub const fn old_lines(&self) -> Range<usize> {
        self.line..self.line + self.endings.0
    }

    /// The lines of the new sections, as lines are numbered now.
    pub const fn new_lines(&self) -> Range<usize> {
        self.line..self.line + self.endings.1
    }

    /// Of how many other sections something is new: [`Document::others`] says which.
    pub const fn others(&self) -> usize {
        self.change.others
    }
}

/// Why a section is named that an edit did not replace.
#[derive(Clone, Copy, Debug, PartialEq, Eq, Hash)]
pub enum Why {
    /// It has other events than before, since a label came or went.
    Events,
    /// It has the events that it had, and a link or an image in it leads elsewhere: another definition of its label is the first, or that one
    /// says something else.
    Targets,
}

/// A section that an edit did not replace, and of which something is new.
#[derive(Clone, Copy, Debug, PartialEq, Eq, Hash)]
pub struct Other {
    /// Its number, as sections are numbered now.
    pub section: usize,
    /// What is new of it.
    pub why: Why,
}

/// A place in a document as editors ask for it, in the units of an [`Encoding`].
#[derive(Clone, Copy, Debug, PartialEq, Eq, PartialOrd, Ord, Hash)]
pub struct Place {
    /// The line, from 0.
    pub line: usize,
    /// The units of the line in front of the place.
    pub character: usize,
}

/// A reference that nothing defines.
#[derive(Clone, Debug, PartialEq, Eq)]
pub struct Undefined {
    /// The bytes of its label in the document: what is between its brackets.
    pub label: Range<usize>,
}

/// A definition in a document.
#[derive(Clone, Debug, PartialEq, Eq, Hash)]
#[non_exhaustive]
pub struct Defined {
    /// The section in which it begins.
    pub section: usize,
    /// The bytes of the document that it covers.
    pub bytes: Range<usize>,
}

/// What the units of characters are.
#[derive(Clone, Copy, Debug, PartialEq, Eq, Hash)]
pub enum Encoding {
    /// The bytes of UTF-8.
    Utf8,
    /// The units of UTF-16, of which a character above U+FFFF has two.
    Utf16,
}

impl Document {
    /// Reads a whole document, with the constructs and the tab size of the options, but without literals, checks and tables of GFM. The rest of them is not
    /// looked at.
    ///
    /// # Errors
    ///
    /// If memory runs out, or the document is too long.
    ///
    /// # Panics
    ///
    /// If the library that is linked has another version. Nothing has been read or written then.
    pub fn new(bytes: impl AsRef<[u8]>, options: &Options) -> Result<Document, Error> {
        assert_version();
        let (bytes, text) = (bytes.as_ref(), options.text);
        let options = limecove_sys::TextOptions {
            size: size_of::<limecove_sys::TextOptions>(),
            tab_size: text.tab_size.get(),
            constructs: text.constructs | options.blocks | options.extensions,
        };
        let mut made = Document {
            document: UnsafeCell::new(NO_DOCUMENT),
            bytes: copied(bytes)?,
            text,
            sections: 0,
            others: 0,
        };
        // SAFETY: the version was asked. Pointers and lengths are those of references that live for the call. The document is not open.
        let answer = unsafe {
            limecove_sys::limecove_document_new(
                bytes.as_ptr(),
                bytes.len(),
                &options,
                made.document.get(),
            )
        };
        read(answer.code, || unknown(answer.code))?;
        made.sections = answer.count;
        Ok(made)
    }

    /// Puts bytes in the place of these.
    ///
    /// # Errors
    ///
    /// If memory runs out, the document would be too long, or the bytes are none of it. The document is then as it was.
    pub fn replace(
        &mut self,
        range: Range<usize>,
        with: impl AsRef<[u8]>,
    ) -> Result<Changed, Error> {
        let (with, len) = (with.as_ref(), self.bytes.len());
        // room for the bytes first: what follows the edit needs no memory
        let more = with.len().saturating_sub(range.len());
        let got = self.bytes.try_reserve(more);
        got.map_err(|_| Error::OutOfMemory)?;
        let mut change = limecove_sys::Changed::default();
        // SAFETY: the document is as a call of the library left it, and is not shared. Pointers and lengths are those of references.
        let answer = unsafe {
            limecove_sys::limecove_document_replace(
                self.document.get(),
                range.start,
                range.end,
                with.as_ptr(),
                with.len(),
                &mut change,
            )
        };
        read(answer.code, || Error::NoSuchBytes {
            from: range.start,
            to: range.end,
            len,
        })?;
        self.sections = answer.count;
        self.others = change.others;
        let old_end = change.end + range.len() - with.len();
        let old = endings(&self.bytes[change.start..old_end]);
        put(&mut self.bytes, range, with);
        let new = endings(&self.bytes[change.start..change.end]);
        let line = self.place(change.start, Encoding::Utf8);
        Ok(Changed {
            change,
            old_end,
            line: line.map_or(0, |it| it.line),
            endings: (old, new),
        })
    }

    /// Puts bytes in the place of each of these ranges, as one edit: all or none. The ranges are those of the document as it is before, in
    /// order, and none begins before the one in front of it ends. What changed is told of all of them together. Without ranges nothing changes.
    ///
    /// ```
    /// use limecove::{Document, Options};
    ///
    /// let mut document = Document::new("[a][b] [b]\n\n[b]: c\n", &Options::default())?;
    /// document.replace_all(&[(4..5, b"d"), (8..9, b"d"), (13..14, b"d")])?;
    /// assert_eq!(document.bytes(), b"[a][d] [d]\n\n[d]: c\n");
    /// # Ok::<(), limecove::Error>(())
    /// ```
    ///
    /// # Errors
    ///
    /// If memory runs out, the document would be too long, or a range is none of it, or not in order: [`Error::NoSuchBytes`] says the first
    /// such range. The document is then as it was.
    pub fn replace_all(&mut self, edits: &[(Range<usize>, &[u8])]) -> Result<Changed, Error> {
        let all = match (edits.first(), edits.last()) {
            (Some((first, _)), Some((last, _))) => first.start..last.end,
            _ => 0..0,
        };
        let (mut with, mut done) = (Text::new(), all.start);
        for (range, new) in edits {
            let kept = self.bytes.get(done..range.start);
            let kept = kept.filter(|_| self.bytes.get(range.clone()).is_some());
            with.add_bytes(kept.ok_or(Error::NoSuchBytes {
                from: range.start,
                to: range.end,
                len: self.bytes.len(),
            })?)?;
            with.add_bytes(new)?;
            done = range.end;
        }
        self.replace(all, with.into_bytes())
    }

    /// The sections that the last edit did not replace and of which something is new, in order. All others have the events that they had, and
    /// their links lead where they led.
    ///
    /// ```
    /// use limecove::{Document, Options, Other, Why};
    ///
    /// let mut document = Document::new("[a]\n\n[b]\n\n[a]: c\n", &Options::default())?;
    /// document.replace(15..16, "d")?;
    /// let leads_elsewhere = Other { section: 0, why: Why::Targets };
    /// assert_eq!(document.others()?, [leads_elsewhere]);
    /// # Ok::<(), limecove::Error>(())
    /// ```
    ///
    /// # Errors
    ///
    /// If memory runs out.
    pub fn others(&self) -> Result<Vec<Other>, Error> {
        let (mut named, mut others) = (Vec::new(), Vec::new());
        let got = named.try_reserve_exact(self.others);
        let got = got.and_then(|()| others.try_reserve_exact(self.others));
        got.map_err(|_| Error::OutOfMemory)?;
        let room = named.as_mut_ptr();
        // SAFETY: as in `events_in`, and there is room for that many.
        let written = unsafe {
            limecove_sys::limecove_document_others(self.document.get(), 0, room, self.others)
        };
        // SAFETY: that many were written.
        unsafe { named.set_len(written) };
        others.extend(named.iter().map(|it: &limecove_sys::Named| Other {
            section: it.section,
            why: match it.why {
                limecove_sys::WHY_EVENTS => Why::Events,
                _ => Why::Targets,
            },
        }));
        Ok(others)
    }

    /// All events.
    ///
    /// # Errors
    ///
    /// If memory runs out.
    pub fn events(&self) -> Result<Vec<Event>, Error> {
        self.events_in(0..self.sections)
    }

    /// The events of these sections. Their places and links are those in the whole document.
    ///
    /// # Errors
    ///
    /// If memory runs out, or there are no such sections.
    pub fn events_in(&self, sections: Range<usize>) -> Result<Vec<Event>, Error> {
        let mut events = Vec::<Event>::new();
        loop {
            let room = events.capacity();
            let records = events.as_mut_ptr().cast::<Record>();
            // SAFETY: the document is as a call of the library left it, and no other call has it: it is not `Sync`, and the library calls
            // nothing of this program but the allocator, which has no document. There is room for that many. An event is a record.
            let answer = unsafe {
                limecove_sys::limecove_document_events(
                    self.document.get(),
                    sections.start,
                    sections.end,
                    records,
                    room,
                )
            };
            read(answer.code, || Error::NoSuchSections {
                from: sections.start,
                to: sections.end,
                count: self.sections,
            })?;
            if answer.count <= room {
                // SAFETY: that many were written.
                unsafe { events.set_len(answer.count) };
                return Ok(events);
            }
            let got = events.try_reserve_exact(answer.count);
            got.map_err(|_| Error::OutOfMemory)?;
        }
    }

    /// These sections as a tree, with places in the whole document. Links by reference go where its definitions say, wherever they stand.
    ///
    /// # Errors
    ///
    /// If memory runs out, or there are no such sections.
    pub fn tree<'a>(
        &'a self,
        sections: Range<usize>,
        definitions: &'a Definitions,
    ) -> Result<Tree<'a>, Error> {
        let events = self.events_in(sections)?;
        let tree = Tree::with_definitions(&self.bytes, &events, definitions)?;
        Ok(tree.read_with(self.text))
    }

    /// A copy of the document as it is now, which edits do not change, and which several threads can ask at the same time.
    ///
    /// # Errors
    ///
    /// If memory runs out.
    pub fn snapshot(&self) -> Result<Snapshot, Error> {
        Ok(Snapshot::of(
            copied(&self.bytes)?,
            self.events()?,
            self.text,
        ))
    }

    /// The first definition of a label, which is what the label means in the whole document. `None` if nothing defines it. The label is what is
    /// between brackets, in any form. It takes time and memory in proportion to all events: [`Definitions`] are for many labels.
    ///
    /// ```
    /// use limecove::{Document, Options};
    ///
    /// let document = Document::new("[a][ B ]\n\n[b]: c\n", &Options::default())?;
    /// let found = document.definition_of(" B ")?.unwrap();
    /// assert_eq!((&document.bytes()[found.bytes], found.section), (&b"[b]: c"[..], 1));
    /// # Ok::<(), limecove::Error>(())
    /// ```
    ///
    /// # Errors
    ///
    /// If memory runs out.
    pub fn definition_of(&self, label: impl AsRef<[u8]>) -> Result<Option<Defined>, Error> {
        let label = label.as_ref();
        let mut found = limecove_sys::Defined::default();
        // SAFETY: as in `events_in`. The label lives for the call.
        let answer = unsafe {
            limecove_sys::limecove_document_definition_of(
                self.document.get(),
                label.as_ptr(),
                label.len(),
                &mut found,
            )
        };
        read(answer.code, || unknown(answer.code))?;
        Ok((answer.count == 1).then_some(Defined {
            section: found.section,
            bytes: found.from..found.to,
        }))
    }

    /// The references of these sections that nothing in the whole document defines, in their order. They are text, and leave no span: their
    /// brackets were left, and a label is between them. It copies the document's bytes.
    ///
    /// ```
    /// use limecove::{Document, Options};
    ///
    /// let document = Document::new("[a] [b] `[c]`\n\n[a]: d\n", &Options::default())?;
    /// let found = document.undefined(0..document.sections())?;
    /// assert_eq!((found.len(), &found[0].label), (1, &(5..6)));
    /// # Ok::<(), limecove::Error>(())
    /// ```
    ///
    /// # Errors
    ///
    /// If memory runs out, or there are no such sections.
    pub fn undefined(&self, sections: Range<usize>) -> Result<Vec<Undefined>, Error> {
        let mut labels = Vec::<ByteRange>::new();
        loop {
            let room = labels.capacity();
            // SAFETY: as in `events_in`. There is room for that many.
            let answer = unsafe {
                limecove_sys::limecove_document_undefined(
                    self.document.get(),
                    sections.start,
                    sections.end,
                    labels.as_mut_ptr(),
                    room,
                )
            };
            read(answer.code, || Error::NoSuchSections {
                from: sections.start,
                to: sections.end,
                count: self.sections,
            })?;
            if answer.count <= room {
                // SAFETY: that many were written.
                unsafe { labels.set_len(answer.count) };
                break;
            }
            let got = labels.try_reserve_exact(answer.count);
            got.map_err(|_| Error::OutOfMemory)?;
        }
        let mut found = Vec::new();
        let got = found.try_reserve_exact(labels.len());
        got.map_err(|_| Error::OutOfMemory)?;
        let labels = labels.iter().map(|it| it.from..it.to);
        found.extend(labels.map(|label| Undefined { label }));
        Ok(found)
    }

    /// The bytes.
    pub fn bytes(&self) -> &[u8] {
        &self.bytes
    }

    /// The bytes of a section.
    ///
    /// ```
    /// use limecove::{Document, Options};
    ///
    /// let document = Document::new("# a\n\nb\n", &Options::default())?;
    /// assert_eq!(document.section_bytes(1)?, b"b\n");
    /// # Ok::<(), limecove::Error>(())
    /// ```
    ///
    /// # Errors
    ///
    /// If there is no such section.
    pub fn section_bytes(&self, section: usize) -> Result<&[u8], Error> {
        if section >= self.sections {
            return Err(Error::NoSuchSections {
                from: section,
                to: section.saturating_add(1),
                count: self.sections,
            });
        }
        Ok(&self.bytes[self.start_of(section)..self.start_of(section + 1)])
    }

    /// How many sections there are.
    pub const fn sections(&self) -> usize {
        self.sections
    }

    /// How many bytes the document has.
    pub fn len(&self) -> usize {
        self.bytes.len()
    }

    /// How many lines it has: one more than line endings.
    pub fn line_count(&self) -> usize {
        let end = self.place(self.bytes.len(), Encoding::Utf8);
        end.map_or(0, |end| end.line) + 1
    }

    /// Whether it has none.
    pub fn is_empty(&self) -> bool {
        self.sections == 0
    }

    /// The section that a byte is in. At the document's end or behind it, the number of sections.
    pub fn section_at(&self, byte: usize) -> usize {
        // SAFETY: as in `events_in`.
        unsafe { limecove_sys::limecove_document_section_at(self.document.get(), byte) }
    }

    /// Where a section starts: the index of its first byte. Behind the last section, how many bytes the document has.
    pub fn start_of(&self, section: usize) -> usize {
        // SAFETY: as in `events_in`.
        unsafe { limecove_sys::limecove_document_start_of(self.document.get(), section) }
    }

    /// The place of a byte index. `None` behind the document's end, and in a character.
    pub fn place(&self, byte: usize, encoding: Encoding) -> Option<Place> {
        let mut place = limecove_sys::Place::default();
        // SAFETY: as in `events_in`.
        let code = unsafe {
            limecove_sys::limecove_document_place(
                self.document.get(),
                byte,
                number_of(encoding),
                &mut place,
            )
        };
        (code == limecove_sys::READ).then_some(Place {
            line: place.line,
            character: place.character,
        })
    }

    /// The byte index of a place. `None` for a line that there is not, and in a character. Behind a line's end it is the line's end.
    pub fn index(&self, place: Place, encoding: Encoding) -> Option<usize> {
        let mut index = 0;
        // SAFETY: as in `events_in`.
        let code = unsafe {
            limecove_sys::limecove_document_index(
                self.document.get(),
                place.line,
                place.character,
                number_of(encoding),
                &mut index,
            )
        };
        (code == limecove_sys::READ).then_some(index)
    }

    /// The byte index of the nearest place at or before this one, as an editor means a place that there is not: behind a line's end it is the line's
    /// end, in a character its start, and behind the last line the document's end.
    ///
    /// ```
    /// use limecove::{Document, Encoding, Options, Place};
    ///
    /// let document = Document::new("a\n😀b", &Options::default())?;
    /// let nearest = |line, character| document.nearest(Place { line, character }, Encoding::Utf16);
    /// assert_eq!((nearest(0, 9), nearest(1, 1), nearest(2, 0)), (1, 2, 7));
    /// # Ok::<(), limecove::Error>(())
    /// ```
    pub fn nearest(&self, place: Place, encoding: Encoding) -> usize {
        // a character has at most four units
        let mut tried = (0..4).filter_map(|back| {
            let character = place.character.checked_sub(back)?;
            self.index(Place { character, ..place }, encoding)
        });
        tried.next().unwrap_or(self.bytes.len())
    }
}

/// How many lines end in these bytes, by LF, CR LF or CR.
fn endings(bytes: &[u8]) -> usize {
    let ends = |(at, byte): &(usize, &u8)| {
        **byte == b'\n' || **byte == b'\r' && bytes.get(at + 1) != Some(&b'\n')
    };
    bytes.iter().enumerate().filter(ends).count()
}

/// Puts bytes in the place of these. There is room for them.
fn put(bytes: &mut Vec<u8>, range: Range<usize>, with: &[u8]) {
    let (old, behind) = (bytes.len(), range.start + with.len());
    let new = old - range.len() + with.len();
    bytes.resize(new.max(old), 0);
    bytes.copy_within(range.end..old, behind);
    bytes.truncate(new);
    bytes[range.start..behind].copy_from_slice(with);
}

/// The units of an encoding, as the library takes them.
fn number_of(encoding: Encoding) -> u32 {
    match encoding {
        Encoding::Utf8 => 0,
        Encoding::Utf16 => 1,
    }
}

/// Whether a call succeeded, by its code. `refused` is why, if what was asked for is not there.
fn read(code: u32, refused: impl FnOnce() -> Error) -> Result<(), Error> {
    match code {
        limecove_sys::READ => Ok(()),
        limecove_sys::OUT_OF_MEMORY => Err(Error::OutOfMemory),
        limecove_sys::TOO_LONG => Err(Error::TooLong),
        limecove_sys::NO_SUCH_RANGES | limecove_sys::NO_SUCH_BYTES => Err(refused()),
        code => unknown(code),
    }
}

/// What no call returns here.
fn unknown(code: u32) -> ! {
    unreachable!("the document is open, and the code is {}", code)
}

impl Drop for Document {
    fn drop(&mut self) {
        // SAFETY: the document is as a call of the library left it.
        unsafe { limecove_sys::limecove_document_close(self.document.get_mut()) }
    }
}

impl fmt::Debug for Document {
    fn fmt(&self, f: &mut fmt::Formatter<'_>) -> fmt::Result {
        f.debug_struct("Document")
            .field("sections", &self.sections)
            .finish()
    }
}

#[cfg(test)]
mod tests {
    use super::*;

    /// The bytes that the library has.
    fn bytes_of(document: &Document) -> Vec<u8> {
        let mut bytes = vec![0; document.len() + 1];
        // SAFETY: the document is as a call of the library left it, and is not shared. There are that many bytes.
        let answer = unsafe {
            limecove_sys::limecove_document_bytes(
                document.document.get(),
                0,
                document.len(),
                bytes.as_mut_ptr(),
                bytes.len(),
            )
        };
        assert_eq!(answer.code, limecove_sys::READ);
        bytes.truncate(answer.count);
        bytes
    }

    /// What is kept beside the library are the bytes that it has.
    #[test]
    fn bytes_are_those_of_the_library() {
        let mut document = Document::new("# a\n\nb\n\n- c\n", &Options::default()).unwrap();
        assert_eq!(bytes_of(&document), b"# a\n\nb\n\n- c\n");
        for (range, with) in [
            (2..3, "# d\n\n"),
            (12..12, "e"),
            (0..3, ""),
            (4..9, "\n\n\n"),
        ] {
            document.replace(range.clone(), with).unwrap();
            assert_eq!(bytes_of(&document), document.bytes(), "{range:?}");
        }
        document
            .replace_all(&[(0..1, b"f\n"), (3..3, b"g")])
            .unwrap();
        assert_eq!(bytes_of(&document), document.bytes());
        document.replace(0..document.len(), "").unwrap();
        assert!(bytes_of(&document).is_empty() && document.bytes().is_empty());
    }
}
