//! A document that was read, and how its events are copied from the library's memory.

use crate::{Error, Event, Options, TextOptions};
use limecove_sys::{Answer, ByteRange, Record, NO_READING};
use std::cell::UnsafeCell;
use std::fmt;
use std::iter::FusedIterator;
use std::mem::{size_of, MaybeUninit};
use std::num::NonZeroUsize;
use std::ops::Range;
use std::sync::atomic::{AtomicBool, Ordering};

/// A document that was read, with its events in the library's memory. It is given back when this is dropped.
///
/// Its events are copied by `&self`, one at a time or some: to copy one takes the same time whichever it is. It can be moved to another
/// thread. Several threads share it behind a lock: the library takes the list out of the reading and puts it back, to copy of it.
///
/// ```
/// use limecove::{Name, Options, Reading};
///
/// let reading = Reading::open("a `code` b", &Options::default())?;
/// assert_eq!(reading.len(), 14);
/// let code = reading.iter().find(|event| event.name() == Name::CodeText);
/// assert_eq!(code.unwrap().point().index, 2);
/// # Ok::<(), limecove::Error>(())
/// ```
pub struct Reading {
    /// What a call of the library left. A copy writes to it, and no reference to what is in it outlives a call.
    reading: UnsafeCell<limecove_sys::Reading>,
    count: usize,
}

// SAFETY: a reading is numbers and a list in memory of `malloc`, of which nothing else has a pointer. The library keeps no other state,
// of threads neither, and `free` takes blocks of each thread. It is not `Sync`: a copy writes to the reading.
unsafe impl Send for Reading {}

/// A reading is not shared by threads without a lock.
///
/// ```compile_fail
/// fn is_sync<T: Sync>() {}
/// is_sync::<limecove::Reading>();
/// ```
///
/// It can be sent to one, and what holds copies of events is both.
///
/// ```
/// fn is_send<T: Send>() {}
/// fn is_sync<T: Sync>() {}
/// is_send::<limecove::Reading>();
/// is_send::<limecove::Tree<'_>>();
/// is_sync::<limecove::Tree<'_>>();
/// is_sync::<limecove::Event>();
/// ```
#[cfg(doctest)]
struct Threads;

impl Reading {
    /// Reads a whole document.
    ///
    /// # Errors
    ///
    /// As [`Error`] says.
    ///
    /// # Panics
    ///
    /// If the library that is linked has another version. Nothing has been read or written then.
    pub fn open(document: impl AsRef<[u8]>, options: &Options) -> Result<Reading, Error> {
        let document = document.as_ref();
        let options = limecove_sys::Options {
            size: size_of::<limecove_sys::Options>(),
            tab_size: options.text.tab_size.get(),
            constructs: options.constructs(),
            cut: options.cut.map_or(0, NonZeroUsize::get),
            machine: options.machine as u32,
            deep: u32::from(options.deep && options.machine.links_text()),
        };
        // SAFETY: the version was asked. Pointers and lengths are those of references that live for the call. The reading is closed.
        Reading::of(|reading| unsafe {
            limecove_sys::limecove_open(document.as_ptr(), document.len(), &options, reading)
        })
    }

    /// Reads a whole document as text, without paragraphs.
    ///
    /// # Errors
    ///
    /// As [`Error`] says.
    ///
    /// # Panics
    ///
    /// As [`Reading::open`].
    pub fn open_text(document: impl AsRef<[u8]>, options: &TextOptions) -> Result<Reading, Error> {
        let document = document.as_ref();
        let options = numbers_of(options);
        // SAFETY: as in `open`.
        Reading::of(|reading| unsafe {
            limecove_sys::limecove_open_text(document.as_ptr(), document.len(), &options, reading)
        })
    }

    /// Reads ranges of a document as one text: [`tokenize_text_in`](crate::tokenize_text_in) says which.
    ///
    /// # Errors
    ///
    /// As [`Error`] says.
    ///
    /// # Panics
    ///
    /// As [`Reading::open`].
    pub fn open_text_in(
        document: impl AsRef<[u8]>,
        ranges: &[Range<usize>],
        options: &TextOptions,
    ) -> Result<Reading, Error> {
        let document = document.as_ref();
        let mut places = Vec::new();
        let got = places.try_reserve_exact(ranges.len());
        got.map_err(|_| Error::OutOfMemory)?;
        places.extend(ranges.iter().map(|range| ByteRange {
            from: range.start,
            to: range.end,
        }));
        let options = numbers_of(options);
        // SAFETY: as in `open`.
        let opened = Reading::of(|reading| unsafe {
            limecove_sys::limecove_open_text_in(
                document.as_ptr(),
                document.len(),
                places.as_ptr(),
                places.len(),
                &options,
                reading,
            )
        });
        match opened {
            Err(Error::NoSuchRanges { .. }) => Err(no_such_ranges(document, ranges)),
            opened => opened,
        }
    }

    /// What a call opens.
    fn of(open: impl FnOnce(&mut limecove_sys::Reading) -> Answer) -> Result<Reading, Error> {
        assert_version();
        let mut reading = Reading {
            reading: UnsafeCell::new(NO_READING),
            count: 0,
        };
        let answer = open(reading.reading.get_mut());
        debug_assert_eq!(answer.version, limecove_sys::VERSION);
        reading.count = answer.count;
        match answer.code {
            limecove_sys::READ => Ok(reading),
            limecove_sys::OUT_OF_MEMORY => Err(Error::OutOfMemory),
            limecove_sys::TOO_LONG => Err(Error::TooLong),
            // which of them, its caller finds
            limecove_sys::NO_SUCH_RANGES => Err(no_such_ranges(&[], &[])),
            code => unreachable!("the options choose something, and the code is {}", code),
        }
    }

    /// How many events there are.
    pub const fn len(&self) -> usize {
        self.count
    }

    /// Whether there are none.
    pub const fn is_empty(&self) -> bool {
        self.count == 0
    }

    /// The event of this index, if there is one.
    pub fn get(&self, index: usize) -> Option<Event> {
        let mut room = [MaybeUninit::uninit()];
        // SAFETY: that many were written.
        (self.copy(index, &mut room) == 1).then(|| unsafe { room[0].assume_init() })
    }

    /// The events, one after the other. They are copied some at a time.
    pub fn iter(&self) -> Iter<'_> {
        Iter {
            reading: self,
            next: 0,
            copied: 0,
            room: [MaybeUninit::uninit(); ROOM],
        }
    }

    /// All events.
    ///
    /// # Errors
    ///
    /// If memory runs out.
    pub fn to_vec(&self) -> Result<Vec<Event>, Error> {
        let mut events = Vec::new();
        let got = events.try_reserve_exact(self.count);
        got.map_err(|_| Error::OutOfMemory)?;
        let written = self.copy(0, events.spare_capacity_mut());
        // SAFETY: there is room for that many, and they were written.
        unsafe { events.set_len(written) };
        Ok(events)
    }

    /// Writes the events from this one on, as many as fit. Returns how many were written.
    fn copy(&self, from: usize, room: &mut [MaybeUninit<Event>]) -> usize {
        let records = room.as_mut_ptr().cast::<Record>();
        // SAFETY: the reading is as a call of the library left it, and no other call has it: it is not `Sync`, and the library calls
        // nothing of this program but the allocator, which has no reading. The room is that of a reference. An event is a record.
        unsafe { limecove_sys::limecove_copy(self.reading.get(), from, records, room.len()) }
    }
}

/// Ranges that the library refused, with the first that cannot be read behind the one before it.
fn no_such_ranges(document: &[u8], ranges: &[Range<usize>]) -> Error {
    let begins_line = |at: usize| match document[..at].last() {
        Some(b'\r') => document.get(at) != Some(&b'\n'),
        last => matches!(last, None | Some(b'\n')),
    };
    let has_ending = |bytes: &[u8]| bytes.iter().any(|byte| matches!(byte, b'\n' | b'\r'));
    let is_whole = |range: &Range<usize>| range.start <= range.end && range.end <= document.len();
    // from where a range ends, another goes on there, or later in the line that begins there
    let goes_on = |end: usize, from: usize| {
        from == end || from > end && begins_line(end) && !has_ending(&document[end..from])
    };
    let is_wrong = |&index: &usize| {
        let range = &ranges[index];
        !is_whole(range) || index > 0 && !goes_on(ranges[index - 1].end, range.start)
    };
    let index = (0..ranges.len()).find(is_wrong).unwrap_or(0);
    let range = ranges.get(index).cloned().unwrap_or_default();
    Error::NoSuchRanges {
        index,
        from: range.start,
        to: range.end,
        len: document.len(),
    }
}

/// Options of text, as the library takes them.
fn numbers_of(options: &TextOptions) -> limecove_sys::TextOptions {
    limecove_sys::TextOptions {
        size: size_of::<limecove_sys::TextOptions>(),
        tab_size: options.tab_size.get(),
        constructs: options.constructs,
    }
}

impl Drop for Reading {
    fn drop(&mut self) {
        // SAFETY: the reading is as a call of the library left it.
        unsafe { limecove_sys::limecove_close(self.reading.get_mut()) }
    }
}

impl fmt::Debug for Reading {
    fn fmt(&self, f: &mut fmt::Formatter<'_>) -> fmt::Result {
        f.debug_struct("Reading").field("len", &self.count).finish()
    }
}

impl<'a> IntoIterator for &'a Reading {
    type Item = Event;
    type IntoIter = Iter<'a>;

    fn into_iter(self) -> Iter<'a> {
        self.iter()
    }
}

/// How many events are copied at a time.
const ROOM: usize = 32;

/// The events of a [`Reading`], in their order.
#[derive(Clone, Debug)]
pub struct Iter<'a> {
    reading: &'a Reading,
    next: usize,
    copied: usize,
    room: [MaybeUninit<Event>; ROOM],
}

impl Iterator for Iter<'_> {
    type Item = Event;

    fn next(&mut self) -> Option<Event> {
        if self.next == self.copied {
            self.copied += self.reading.copy(self.next, &mut self.room);
        }
        if self.next == self.copied {
            return None;
        }
        // SAFETY: the events of the indices from the last multiple of `ROOM` to `copied` are in the room.
        let event = unsafe { self.room[self.next % ROOM].assume_init() };
        self.next += 1;
        Some(event)
    }

    fn size_hint(&self) -> (usize, Option<usize>) {
        let left = self.reading.count - self.next;
        (left, Some(left))
    }
}

impl ExactSizeIterator for Iter<'_> {}

impl FusedIterator for Iter<'_> {}

/// Panics if the library that is linked has another version than its declarations here. It is asked once, before the first call
/// that writes: such a library may write records of another size.
pub(crate) fn assert_version() {
    static IS_SAME: AtomicBool = AtomicBool::new(false);
    if !IS_SAME.load(Ordering::Relaxed) {
        // SAFETY: the function takes nothing, and reads and writes nothing.
        let version = unsafe { limecove_sys::limecove_version() };
        assert_eq!(
            version,
            limecove_sys::VERSION,
            "liblimecove.a has another version"
        );
        IS_SAME.store(true, Ordering::Relaxed);
    }
}

#[cfg(test)]
mod tests {
    use super::*;

    #[test]
    fn codes_are_errors() {
        let code = |code| {
            let version = limecove_sys::VERSION;
            let opened = Reading::of(|_| Answer {
                code,
                version,
                count: 0,
            });
            opened.map(|reading| reading.len())
        };
        assert_eq!(code(0), Ok(0));
        assert_eq!(code(1), Err(Error::OutOfMemory));
        assert_eq!(code(2), Err(Error::TooLong));
        assert!(matches!(code(8), Err(Error::NoSuchRanges { .. })));
    }
}
