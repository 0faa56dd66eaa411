//! Events, and the spans between them.

use crate::names::Name;
use crate::Error;
use limecove_sys::{Record, NO_INDEX};
use std::fmt;
use std::iter::{FusedIterator, Zip};
use std::ops::Range;
use std::{slice, vec};

/// Whether a span begins or ends.
#[derive(Clone, Copy, Debug, PartialEq, Eq, PartialOrd, Ord, Hash)]
pub enum Kind {
    /// The span begins here.
    Enter,
    /// The span ends here.
    Exit,
}

/// A place in a document.
#[derive(Clone, Copy, Debug, PartialEq, Eq, PartialOrd, Ord, Hash)]
#[non_exhaustive]
pub struct Point {
    /// Byte index into the document, from 0.
    pub index: usize,
    /// Number of the virtual byte of a tab, from 0; 0 elsewhere.
    pub vs: usize,
    /// Line, from 1.
    pub line: usize,
    /// Virtual column in the line, from 1. A tab goes to the next tab stop.
    pub column: usize,
}

/// What a chain is read as.
#[derive(Clone, Copy, Debug, PartialEq, Eq, PartialOrd, Ord, Hash)]
pub enum Content {
    /// Block constructs (headings, lists, paragraphs).
    Flow,
    /// Definitions, and what is left of a paragraph.
    Content,
    /// Text with character escapes and references.
    String,
    /// Text with all inline constructs.
    Text,
}

/// The place of an enter in a chain.
#[derive(Clone, Copy, Debug, PartialEq, Eq, PartialOrd, Ord, Hash)]
#[non_exhaustive]
pub struct Link {
    /// Index into the events of the enter before in the chain.
    pub previous: Option<usize>,
    /// Index into the events of the enter after in the chain.
    pub next: Option<usize>,
    /// What the chain's text is read as.
    pub content: Content,
}

/// The start or the end of a span.
#[derive(Clone, Copy, PartialEq, Eq, Hash)]
#[repr(transparent)]
pub struct Event(pub(crate) Record);

impl Event {
    /// Whether the span begins or ends.
    pub fn kind(&self) -> Kind {
        if self.0.kind == 0 {
            Kind::Enter
        } else {
            Kind::Exit
        }
    }

    /// What the span is.
    pub fn name(&self) -> Name {
        Name::of(self.0.name).expect("a record's number is that of a name")
    }

    /// Where it begins or ends.
    pub fn point(&self) -> Point {
        Point {
            line: self.0.line,
            column: self.0.column,
            index: self.0.index,
            vs: self.0.vs,
        }
    }

    /// Where the event joins a chain, if it does.
    pub fn link(&self) -> Option<Link> {
        let content = match self.0.content {
            0 => return None,
            1 => Content::Flow,
            2 => Content::Content,
            3 => Content::String,
            _ => Content::Text,
        };
        let index = |number| (number != NO_INDEX).then_some(number);
        Some(Link {
            previous: index(self.0.previous),
            next: index(self.0.next),
            content,
        })
    }
}

impl fmt::Debug for Event {
    fn fmt(&self, f: &mut fmt::Formatter<'_>) -> fmt::Result {
        f.debug_struct("Event")
            .field("kind", &self.kind())
            .field("name", &self.name())
            .field("point", &self.point())
            .field("link", &self.link())
            .finish()
    }
}

/// As the program prints it: `enter Paragraph 1:1 (0+0)` has kind, name, line, column, byte index and virtual byte of a tab.
impl fmt::Display for Event {
    fn fmt(&self, f: &mut fmt::Formatter<'_>) -> fmt::Result {
        let kind = match self.kind() {
            Kind::Enter => "enter",
            Kind::Exit => "exit",
        };
        let Record {
            line,
            column,
            index,
            vs,
            ..
        } = self.0;
        write!(f, "{kind} {} {line}:{column} ({index}+{vs})", self.name())
    }
}

/// A span: what is between an enter and its exit.
#[derive(Clone, Copy, Debug, PartialEq, Eq, Hash)]
#[non_exhaustive]
pub struct Span {
    /// What the span is.
    pub name: Name,
    /// In how many other spans it is.
    pub depth: usize,
    /// Where it begins.
    pub start: Point,
    /// Where it ends.
    pub end: Point,
}

impl Span {
    /// The bytes of the document that it covers. A tab that the span's start cuts is one of them, a tab that its end cuts is not.
    ///
    /// ```
    /// let document = b"a `code` b";
    /// let events = limecove::tokenize_text(document, &limecove::TextOptions::default())?;
    /// let data = limecove::spans(&events).next().unwrap();
    /// assert_eq!(&document[data.bytes()], b"a ");
    /// # Ok::<(), limecove::Error>(())
    /// ```
    pub fn bytes(&self) -> Range<usize> {
        self.start.index..self.end.index
    }

    /// Those bytes of the document from which the events come.
    ///
    /// # Panics
    ///
    /// If the document is shorter than the span's end.
    pub fn text<'a>(&self, document: &'a [u8]) -> &'a [u8] {
        &document[self.bytes()]
    }
}

/// As in `CodeText 1:3-1:9`: its name, and the lines and columns where it begins and ends.
impl fmt::Display for Span {
    fn fmt(&self, f: &mut fmt::Formatter<'_>) -> fmt::Result {
        let Span {
            name, start, end, ..
        } = self;
        write!(
            f,
            "{name} {}:{}-{}:{}",
            start.line, start.column, end.line, end.column
        )
    }
}

/// The spans of a list of events, in the order in which they begin: each comes before the spans in it.
///
/// It takes time in proportion to the events, in any nesting, and 80 bytes for each span.
///
/// ```
/// let events = limecove::tokenize("a", &limecove::Options::default())?;
/// let shown: Vec<String> = limecove::spans_by_start(&events)?.iter().map(|span| span.to_string()).collect();
/// assert_eq!(shown, ["Paragraph 1:1-1:2", "Data 1:1-1:2"]);
/// # Ok::<(), limecove::Error>(())
/// ```
///
/// # Errors
///
/// If it runs out of memory.
///
/// # Panics
///
/// If the list is not whole: an exit has no enter, or an enter has no exit.
pub fn spans_by_start(events: &[Event]) -> Result<Vec<Span>, Error> {
    let (mut all, mut open) = (Vec::<Span>::new(), Vec::new());
    all.try_reserve_exact(events.len() / 2)
        .map_err(|_| Error::OutOfMemory)?;
    open.try_reserve(1).map_err(|_| Error::OutOfMemory)?;
    for event in events {
        if event.kind() == Kind::Exit {
            let last: usize = open.pop().expect("an exit has an enter");
            all[last].end = event.point();
            continue;
        }
        if open.len() == open.capacity() {
            open.try_reserve(open.len())
                .map_err(|_| Error::OutOfMemory)?;
        }
        open.push(all.len());
        all.push(Span {
            name: event.name(),
            depth: open.len() - 1,
            start: event.point(),
            end: event.point(),
        });
    }
    assert!(open.is_empty(), "an enter has an exit");
    Ok(all)
}

/// The spans of a list of events, in the order in which they end. On part of a list it ends at the first exit whose enter is not there.
///
/// All of them take time in proportion to the events, in any nesting: measured up to 1 MB of emphasis in emphasis (900,000 spans, 300,000
/// deep), whose spans take a thirtieth of the time in which it is read. The iterator keeps an index for each span that is open: 8 bytes.
/// If there is no memory for one, it looks for its enter among the events before, which is slow in deep nesting: it never aborts.
///
/// ```
/// let events = limecove::tokenize(b"a", &limecove::Options::default())?;
/// let shown: Vec<String> = limecove::spans(&events).map(|span| span.to_string()).collect();
/// assert_eq!(shown, ["Data 1:1-1:2", "Paragraph 1:1-1:2"]);
/// # Ok::<(), limecove::Error>(())
/// ```
pub fn spans(events: &[Event]) -> Spans<'_> {
    Spans {
        events,
        index: 0,
        open: Vec::new(),
        unkept: 0,
    }
}

/// An iterator over spans, made by [`spans`].
#[derive(Clone, Debug)]
pub struct Spans<'a> {
    events: &'a [Event],
    /// Of the next event.
    index: usize,
    /// Of the enters of the spans that are open, but for the last ones that are not kept.
    open: Vec<usize>,
    /// How many of the spans that are open are not kept, as there was no memory.
    unkept: usize,
}

impl Spans<'_> {
    /// Keeps the index of an enter, if there is memory.
    fn begin(&mut self, enter: usize) {
        if self.unkept == 0 && self.open.try_reserve(1).is_ok() {
            self.open.push(enter);
        } else {
            self.unkept += 1;
        }
    }

    /// The enter of the exit of this index, if there is one.
    fn end(&mut self, exit: usize) -> Option<&Event> {
        if self.unkept == 0 {
            return self.events.get(self.open.pop()?);
        }
        self.unkept -= 1;
        last_open(&self.events[..exit])
    }
}

impl Iterator for Spans<'_> {
    type Item = Span;

    fn next(&mut self) -> Option<Span> {
        loop {
            let (index, event) = (self.index, *self.events.get(self.index)?);
            self.index += 1;
            if event.kind() == Kind::Enter {
                self.begin(index);
                continue;
            }
            let start = match self.end(index) {
                Some(enter) => enter.point(),
                None => {
                    self.index = self.events.len();
                    return None;
                }
            };
            return Some(Span {
                name: event.name(),
                depth: self.open.len() + self.unkept,
                start,
                end: event.point(),
            });
        }
    }
}

impl FusedIterator for Spans<'_> {}

/// The last enter whose exit is not among these events.
fn last_open(events: &[Event]) -> Option<&Event> {
    let mut ended = 0;
    for event in events.iter().rev() {
        match event.kind() {
            Kind::Exit => ended += 1,
            Kind::Enter if ended == 0 => return Some(event),
            Kind::Enter => ended -= 1,
        }
    }
    None
}

/// The events of a list, each with the bytes of the document that its span covers: as `into_offset_iter` of other parsers.
///
/// It takes time in proportion to the events, and 16 bytes for each. If the list is not whole, an enter without an exit covers all up
/// to the last event, and an exit without an enter all from the first.
///
/// ```
/// let events = limecove::tokenize("# a", &limecove::Options::default())?;
/// for (event, range) in limecove::with_ranges(&events)? {
///     if event.name() == limecove::Name::HeadingAtx {
///         assert_eq!(range, 0..3);
///     }
/// }
/// # Ok::<(), limecove::Error>(())
/// ```
///
/// # Errors
///
/// If it runs out of memory.
pub fn with_ranges(events: &[Event]) -> Result<WithRanges<'_>, Error> {
    let index = |event: Option<&Event>| event.map_or(0, |event| event.point().index);
    let (first, last) = (index(events.first()), index(events.last()));
    let (mut ranges, mut open) = (Vec::<Range<usize>>::new(), Vec::<usize>::new());
    let got = ranges.try_reserve_exact(events.len());
    got.map_err(|_| Error::OutOfMemory)?;
    for (at, event) in events.iter().enumerate() {
        let here = event.point().index;
        let range = match event.kind() {
            Kind::Enter => {
                open.try_reserve(1).map_err(|_| Error::OutOfMemory)?;
                open.push(at);
                here..last
            }
            Kind::Exit => match open.pop() {
                Some(enter) => {
                    ranges[enter].end = here;
                    ranges[enter].clone()
                }
                None => first..here,
            },
        };
        ranges.push(range);
    }
    Ok(WithRanges {
        pairs: events.iter().zip(ranges),
    })
}

/// An iterator over events with the bytes of their spans, made by [`with_ranges`].
#[derive(Clone, Debug)]
pub struct WithRanges<'a> {
    pairs: Zip<slice::Iter<'a, Event>, vec::IntoIter<Range<usize>>>,
}

impl Iterator for WithRanges<'_> {
    type Item = (Event, Range<usize>);

    fn next(&mut self) -> Option<(Event, Range<usize>)> {
        let (event, range) = self.pairs.next()?;
        Some((*event, range))
    }

    fn size_hint(&self) -> (usize, Option<usize>) {
        self.pairs.size_hint()
    }
}

impl ExactSizeIterator for WithRanges<'_> {}

impl FusedIterator for WithRanges<'_> {}

#[cfg(test)]
pub(crate) mod tests {
    use super::*;
    use std::cmp::Reverse;
    use std::time::{Duration, Instant};

    /// An event on the first line.
    pub(crate) fn event(kind: Kind, name: Name, index: usize) -> Event {
        Event(Record {
            kind: kind as u16,
            content: 0,
            name: name as u32,
            line: 1,
            column: index + 1,
            index,
            vs: 0,
            previous: NO_INDEX,
            next: NO_INDEX,
        })
    }

    fn enter(name: Name, index: usize) -> Event {
        event(Kind::Enter, name, index)
    }

    fn exit(name: Name, index: usize) -> Event {
        event(Kind::Exit, name, index)
    }

    /// Spans in spans, each with data before and behind the next one in it.
    fn nested(depth: usize) -> Vec<Event> {
        let mut events = Vec::new();
        for index in 0..depth {
            events.push(enter(Name::Emphasis, 2 * index));
            events.push(enter(Name::Data, 2 * index));
            events.push(exit(Name::Data, 2 * index + 1));
        }
        for index in 2 * depth..3 * depth {
            events.push(enter(Name::Data, index));
            events.push(exit(Name::Data, index + 1));
            events.push(exit(Name::Emphasis, index + 1));
        }
        events
    }

    /// 350,000 spans in each other, as in 1 MB: in time of the square of that these took hours.
    #[test]
    fn spans_are_linear_in_deep_nesting() {
        let events = nested(350_000);
        let start = Instant::now();
        let found: Vec<Span> = spans(&events).collect();
        assert_eq!(found.len(), events.len() / 2);
        let last = found[found.len() - 1];
        assert_eq!((last.depth, last.bytes()), (0, 0..1_050_000));
        let (event, range) = with_ranges(&events).unwrap().next().unwrap();
        assert_eq!((event, range), (events[0], 0..1_050_000));
        assert_eq!(spans_by_start(&events).unwrap()[0], last);
        assert!(start.elapsed() < Duration::from_secs(60));
    }

    /// What is not kept is found among the events before.
    #[test]
    fn spans_need_no_memory() {
        let events = nested(20);
        let want: Vec<Span> = spans(&events).collect();
        for kept in 0..10 {
            let mut starved = spans(&events);
            while starved.open.len() < kept {
                starved.next();
            }
            starved.unkept = starved.open.len() - kept;
            starved.open.truncate(kept);
            let rest: Vec<Span> = starved.collect();
            assert!(want.ends_with(&rest) && rest.len() >= kept);
        }
    }

    #[test]
    fn part_of_a_list_has_spans() {
        let events = nested(2);
        let mut begun = spans_by_start(&events).unwrap();
        begun.sort_by_key(|span| (span.end, Reverse(span.depth)));
        assert!(spans(&events).eq(begun));
        for from in 0..=events.len() {
            for to in from..=events.len() {
                let part = &events[from..to];
                let mut found = spans(part);
                assert!(found.by_ref().count() <= part.len() / 2);
                assert_eq!(found.next(), None);
                assert_eq!(with_ranges(part).unwrap().len(), part.len());
            }
        }
        let ranges = |part| with_ranges(part).unwrap().map(|(_, range)| range);
        assert!(ranges(&events[2..5]).eq([1..1, 2..2, 2..2]));
        assert_eq!(ranges(&events[..4]).next(), Some(0..2));
    }
}
