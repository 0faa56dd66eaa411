//! A document as it was.

use crate::{Error, Event, LineIndex, TextOptions, Tree};
use std::fmt;

/// A document as it was when [`Document::snapshot`](crate::Document::snapshot) was called: its bytes and events. Several threads can ask it at the same
/// time, while the document is edited.
///
/// ```
/// use limecove::{Document, Options};
///
/// let mut document = Document::new("# a\n", &Options::default())?;
/// let before = document.snapshot()?;
/// document.replace(2..3, "b")?;
/// let title = std::thread::scope(|scope| {
///     let asked = scope.spawn(|| before.tree()?.children().next().unwrap().decoded());
///     asked.join().unwrap()
/// })?;
/// assert_eq!((title.as_slice(), document.bytes()), (&b"a"[..], &b"# b\n"[..]));
/// # Ok::<(), limecove::Error>(())
/// ```
///
/// ```
/// fn is_send_and_sync<T: Send + Sync>() {}
/// is_send_and_sync::<limecove::Snapshot>();
/// ```
#[derive(Clone)]
pub struct Snapshot {
    bytes: Vec<u8>,
    events: Vec<Event>,
    /// How its text was read.
    text: TextOptions,
}

impl Snapshot {
    pub(crate) fn of(bytes: Vec<u8>, events: Vec<Event>, text: TextOptions) -> Snapshot {
        Snapshot {
            bytes,
            events,
            text,
        }
    }

    /// The bytes.
    pub fn bytes(&self) -> &[u8] {
        &self.bytes
    }

    /// All events.
    pub fn events(&self) -> &[Event] {
        &self.events
    }

    /// Its spans as a tree.
    ///
    /// # Errors
    ///
    /// If it runs out of memory.
    pub fn tree(&self) -> Result<Tree<'_>, Error> {
        Ok(Tree::new(&self.bytes, &self.events)?.read_with(self.text))
    }

    /// Its lines.
    ///
    /// # Errors
    ///
    /// If it runs out of memory.
    pub fn lines(&self) -> Result<LineIndex<'_>, Error> {
        LineIndex::new(&self.bytes)
    }
}

impl fmt::Debug for Snapshot {
    fn fmt(&self, f: &mut fmt::Formatter<'_>) -> fmt::Result {
        let (bytes, events) = (self.bytes.len(), self.events.len());
        f.debug_struct("Snapshot")
            .field("bytes", &bytes)
            .field("events", &events)
            .finish()
    }
}
