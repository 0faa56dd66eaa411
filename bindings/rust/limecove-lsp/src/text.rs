//! A document that is edited: its bytes, and what its sections have.

use crate::facts::{facts_of, Facts};
use crate::rules::{tell, Rule};
use limecove::{
    read_document, Document, Encoding, Error, Event, Kind, Options, Other, Place, Undefined,
};
use std::ops::Range;

/// Of so many sections each is asked by itself for its references that nothing defines.
const FEW: usize = 16;

/// A section: how many bytes it has, and what is in it, by places in it.
pub struct Section {
    pub bytes: usize,
    pub facts: Facts,
}

/// A document, and what its sections have.
pub struct Text {
    document: Document,
    sections: Vec<Section>,
}

impl Text {
    /// # Errors
    ///
    /// If memory runs out, or the document is too long.
    pub fn new(bytes: impl AsRef<[u8]>) -> Result<Text, Error> {
        let mut text = Text {
            document: Document::new(bytes, &Options::default())?,
            sections: Vec::new(),
        };
        // all events at once: to ask section by section takes the square of their number
        let events = text.document.events()?;
        let undefined = text.document.undefined(0..text.document.sections())?;
        let mut undefined = &undefined[..];
        let (mut from, mut start) = (0, 0);
        for section in 0..text.document.sections() {
            let end = text.document.start_of(section + 1);
            let is_behind = |it: &Event| it.kind() == Kind::Enter && it.point().index >= end;
            let behind = events[from..].iter().position(is_behind);
            let to = behind.map_or(events.len(), |it| from + it);
            let here = undefined.partition_point(|it| it.label.start < end);
            let made = text.section_of(start..end, &events[from..to], &undefined[..here])?;
            text.sections.push(made);
            undefined = &undefined[here..];
            (from, start) = (to, end);
        }
        Ok(text)
    }

    pub fn bytes(&self) -> &[u8] {
        self.document.bytes()
    }

    /// What is in a section, read from its events, and of these references that nothing defines its own.
    fn read(&self, section: usize, undefined: &[Undefined]) -> Result<Section, Error> {
        let events = self.document.events_in(section..section + 1)?;
        let range = self.document.start_of(section)..self.document.start_of(section + 1);
        let before = |byte| undefined.partition_point(|it| it.label.start < byte);
        let here = before(range.start)..before(range.end);
        self.section_of(range, &events, &undefined[here])
    }

    fn section_of(
        &self,
        range: Range<usize>,
        events: &[Event],
        undefined: &[Undefined],
    ) -> Result<Section, Error> {
        Ok(Section {
            bytes: range.len(),
            facts: facts_of(self.bytes(), range, events, undefined)?,
        })
    }

    /// Puts a text in the place of bytes, and reads again the sections that this changes.
    ///
    /// # Errors
    ///
    /// If memory runs out, the document would be too long, or the bytes are none of it.
    pub fn replace(&mut self, range: Range<usize>, with: &str) -> Result<(), Error> {
        let change = self.document.replace(range, with)?;
        let undefined = self.document.undefined(change.new_sections())?;
        let new = change.new_sections();
        let fresh: Result<Vec<_>, _> = new.map(|it| self.read(it, &undefined)).collect();
        self.sections.splice(change.old_sections(), fresh?);
        let others = self.document.others()?;
        // each call goes over the whole document: some are dearer than one for all that is between
        let many = others.len() > FEW;
        let mut undefined = match (others.first(), others.last()) {
            (Some(first), Some(last)) if many => {
                self.document.undefined(first.section..last.section + 1)?
            }
            _ => Vec::new(),
        };
        for Other { section, .. } in others {
            if !many {
                undefined = self.document.undefined(section..section + 1)?;
            }
            self.sections[section] = self.read(section, &undefined)?;
        }
        Ok(())
    }

    /// The byte of a place of the protocol: behind a line's end its end, in a character its start, behind the last line the document's end.
    pub fn byte(&self, line: usize, character: usize) -> usize {
        let place = Place { line, character };
        self.document.nearest(place, Encoding::Utf16)
    }

    /// The section that a byte is in, where it starts, and its first line. The document's end is in the last section.
    pub fn section_at(&self, byte: usize) -> Option<(&Section, usize, usize)> {
        let last = self.sections.len().checked_sub(1)?;
        self.placed().nth(self.document.section_at(byte).min(last))
    }

    /// Each section, with the byte and the line at which it starts.
    pub fn placed(&self) -> impl Iterator<Item = (&Section, usize, usize)> + Clone {
        self.sections.iter().scan((0, 0), |(byte, line), section| {
            let at = (section, *byte, *line);
            *byte += section.bytes;
            *line += section.facts.lines;
            Some(at)
        })
    }

    /// What each section has, with the line and the byte at which it starts.
    pub fn lined(&self) -> impl Iterator<Item = (&Facts, usize, usize)> + Clone {
        self.placed()
            .map(|(it, byte, line)| (&it.facts, line, byte))
    }

    /// What the rules find, by bytes of the document, in order.
    pub fn findings(&self) -> Vec<(Range<usize>, Rule)> {
        ordered(self.lined())
    }

    /// How many line endings there are.
    pub fn lines(&self) -> usize {
        self.document.line_count() - 1
    }

    /// What of the document and of its sections is not what reading its bytes anew gives: for tests.
    ///
    /// # Errors
    ///
    /// If memory runs out.
    pub fn difference(&self) -> Result<Option<String>, Error> {
        let (kept, fresh) = (self.document.events()?, read_document(self.bytes())?);
        let anew = Text::new(self.bytes())?;
        let is_other = |(one, other): (&Section, &Section)| {
            one.facts != other.facts || one.bytes != other.bytes
        };
        let other = self.sections.iter().zip(&anew.sections).position(is_other);
        // the same, as if all were one section
        let whole = facts_of(self.bytes(), 0..self.bytes().len(), &fresh, &[])?;
        let whole = ordered([(&whole, 0, 0)].into_iter());
        let found = self.findings();
        Ok(if kept != fresh {
            Some("the document has other events".into())
        } else if self.sections.len() != anew.sections.len() {
            Some("there are other sections".into())
        } else if found != whole {
            let at = found.iter().zip(&whole).position(|it| it.0 != it.1);
            let at = at.unwrap_or(found.len().min(whole.len()));
            let (one, other) = (found.get(at), whole.get(at));
            Some(format!("the rules find {one:?}, and in all {other:?}"))
        } else {
            other.map(|at| format!("section {at} has other facts"))
        })
    }
}

/// What the rules find in sections, by bytes of the document, in order.
fn ordered<'a>(
    sections: impl Iterator<Item = (&'a Facts, usize, usize)> + Clone,
) -> Vec<(Range<usize>, Rule)> {
    let mut found = Vec::new();
    tell(sections, |rule, span, _, byte| {
        found.push((span.bytes.start + byte..span.bytes.end + byte, rule));
    });
    found.sort_unstable_by_key(|(bytes, rule)| (bytes.start, *rule, bytes.end));
    found
}
