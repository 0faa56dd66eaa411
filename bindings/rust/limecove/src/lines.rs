//! Lines and columns of bytes.

use crate::{Encoding, Error, Place};
use std::fmt;
use std::ops::Range;

/// A place in a document, as people and editors count it.
#[derive(Clone, Copy, Debug, PartialEq, Eq, PartialOrd, Ord, Hash)]
#[non_exhaustive]
pub struct LineColumn {
    /// Line, from 1.
    pub line: usize,
    /// Column in bytes, from 1.
    pub bytes: usize,
    /// Column in characters (Unicode scalar values), from 1.
    pub characters: usize,
    /// Column in units of UTF-16, from 1. In the language server protocol lines and columns are from 0.
    pub utf16: usize,
}

/// As in `2:5`: line, and column in characters.
impl fmt::Display for LineColumn {
    fn fmt(&self, f: &mut fmt::Formatter<'_>) -> fmt::Result {
        write!(f, "{}:{}", self.line, self.characters)
    }
}

/// The lines of a document, to look up the line and the columns of a byte. Lines end with LF, CR LF or CR, as in [`Point`](crate::Point).
///
/// It is made in one pass, and keeps 8 bytes for each line and 16 for each 256 bytes. To look up a byte's place, or the byte of a place,
/// takes time in proportion to the logarithm of the document's length, however long a line is.
///
/// ```
/// let index = limecove::LineIndex::new("a\né😀b")?;
/// let place = index.line_column(8);
/// assert_eq!((place.line, place.bytes, place.characters, place.utf16), (2, 7, 3, 4));
/// # Ok::<(), limecove::Error>(())
/// ```
#[derive(Clone)]
pub struct LineIndex<'a> {
    document: &'a [u8],
    /// Where each line begins.
    starts: Vec<usize>,
    /// What is before each multiple of `STEP`.
    counts: Vec<Count>,
}

/// How many bytes are counted at most to look up one.
const STEP: usize = 256;

/// A number of characters, and of units of UTF-16.
#[derive(Clone, Copy, Default)]
struct Count {
    characters: usize,
    utf16: usize,
}

impl Count {
    /// With what begins in these bytes too. A character is counted at its first byte.
    fn and(self, bytes: &[u8]) -> Count {
        let firsts = bytes.iter().filter(|byte| !is_inner(**byte)).count();
        let pairs = bytes.iter().filter(|byte| **byte >= 0xf0).count();
        Count {
            characters: self.characters + firsts,
            utf16: self.utf16 + firsts + pairs,
        }
    }
}

/// Whether it is a byte of a character, but not the first.
fn is_inner(byte: u8) -> bool {
    byte & 0xc0 == 0x80
}

/// How far a walk over the bytes has come: a line from 0, a byte in it, and the units in front of that.
#[derive(Default)]
struct Walk {
    line: usize,
    index: usize,
    character: usize,
}

impl<'a> LineIndex<'a> {
    /// Finds the lines of a document.
    ///
    /// # Errors
    ///
    /// If it runs out of memory.
    pub fn new<T: AsRef<[u8]> + ?Sized>(document: &'a T) -> Result<LineIndex<'a>, Error> {
        let document = document.as_ref();
        let (mut starts, mut counts) = (Vec::new(), Vec::new());
        let mut add = |start| {
            starts.try_reserve(1).map_err(|_| Error::OutOfMemory)?;
            starts.push(start);
            Ok(())
        };
        add(0)?;
        for (at, byte) in document.iter().enumerate() {
            let ends = match byte {
                b'\n' => true,
                b'\r' => document.get(at + 1) != Some(&b'\n'),
                _ => false,
            };
            if ends {
                add(at + 1)?;
            }
        }
        let got = counts.try_reserve_exact(document.len() / STEP + 1);
        got.map_err(|_| Error::OutOfMemory)?;
        let mut count = Count::default();
        counts.push(count);
        for bytes in document.chunks_exact(STEP) {
            count = count.and(bytes);
            counts.push(count);
        }
        Ok(LineIndex {
            document,
            starts,
            counts,
        })
    }

    /// How many lines there are: one more than line endings.
    pub fn line_count(&self) -> usize {
        self.starts.len()
    }

    /// The bytes of a line, without its line ending, by its number from 1. `None` if there is no such line.
    pub fn line(&self, number: usize) -> Option<Range<usize>> {
        let from = *self.starts.get(number.checked_sub(1)?)?;
        let next = self.starts.get(number).copied();
        let mut to = next.unwrap_or(self.document.len());
        if next.is_some() {
            let ending = &self.document[from..to];
            to -= if ending.ends_with(b"\r\n") { 2 } else { 1 };
        }
        Some(from..to)
    }

    /// The line and the columns of the byte of this index: those of its character's first byte. Behind the end they are those of the end.
    ///
    /// If the document is no UTF-8, bytes from 0x80 to 0xBF count as no characters, and all others as one.
    pub fn line_column(&self, index: usize) -> LineColumn {
        let index = index.min(self.document.len());
        let line = self.starts.partition_point(|start| *start <= index);
        let start = self.starts[line - 1];
        let index = self.first_of(index, start);
        let (before, here) = (self.count(start), self.count(index));
        LineColumn {
            line,
            bytes: index - start + 1,
            characters: here.characters - before.characters + 1,
            utf16: here.utf16 - before.utf16 + 1,
        }
    }

    /// The byte of this line and this column in bytes, both from 1. `None` if the line has no such byte: its line ending is part of it,
    /// and of the last line the document's end. It takes no longer for a long line.
    ///
    /// ```
    /// let index = limecove::LineIndex::new("a\né😀b")?;
    /// assert_eq!(index.byte_at(2, 7), Some(8));
    /// assert_eq!(index.byte_at_characters(2, 3), Some(8));
    /// assert_eq!(index.byte_at_utf16(2, 4), Some(8));
    /// assert_eq!(index.byte_at(1, 3), None);
    /// # Ok::<(), limecove::Error>(())
    /// ```
    pub fn byte_at(&self, line: usize, column: usize) -> Option<usize> {
        let whole = self.whole_line(line)?;
        let index = whole.start.checked_add(column.checked_sub(1)?)?;
        (index <= whole.end).then_some(index)
    }

    /// The first byte of the character of this line and this column in characters, as [`byte_at`](LineIndex::byte_at).
    pub fn byte_at_characters(&self, line: usize, column: usize) -> Option<usize> {
        self.find(line, column, |count| count.characters)
    }

    /// The first byte of the character of this line and this column in units of UTF-16, as [`byte_at`](LineIndex::byte_at). A column
    /// inside a character of two units is of that character.
    pub fn byte_at_utf16(&self, line: usize, column: usize) -> Option<usize> {
        self.find(line, column, |count| count.utf16)
    }

    /// The byte of the nearest place at or before this one, as an editor means a place that there is not: behind a line's end it is the line's end,
    /// in front of its line ending; in a character its first byte; and behind the last line the document's end. It takes no longer for a long line.
    ///
    /// ```
    /// use limecove::{Encoding, LineIndex, Place};
    ///
    /// let index = LineIndex::new("a\r\né😀b")?;
    /// let nearest = |line, character| index.nearest(Place { line, character }, Encoding::Utf16);
    /// assert_eq!((nearest(0, 9), nearest(1, 2), nearest(2, 0)), (1, 5, 10));
    /// # Ok::<(), limecove::Error>(())
    /// ```
    pub fn nearest(&self, place: Place, encoding: Encoding) -> usize {
        let number = place.line.saturating_add(1);
        let line = match self.line(number) {
            Some(line) => line,
            None => return self.document.len(),
        };
        let column = place.character.saturating_add(1);
        let found = match encoding {
            Encoding::Utf8 => self.byte_at(number, column),
            Encoding::Utf16 => self.byte_at_utf16(number, column),
        };
        let index = found.map_or(line.end, |index| index.min(line.end));
        self.first_of(index, line.start)
    }

    /// The places of bytes: in a character that of its first byte, in a line ending that of the line's end, and behind the document's end that of its
    /// end.
    ///
    /// For bytes in ascending order it is one walk: its time is in proportion to them, and to the lines and bytes from the first to the last. Behind
    /// one that is less than the one before it, it begins anew.
    ///
    /// ```
    /// use limecove::{Encoding, LineIndex};
    ///
    /// let index = LineIndex::new("a\né😀b")?;
    /// let places = index.places(&[1, 2, 8, 9], Encoding::Utf16)?;
    /// let found: Vec<_> = places.iter().map(|it| (it.line, it.character)).collect();
    /// assert_eq!(found, [(0, 1), (1, 0), (1, 3), (1, 4)]);
    /// # Ok::<(), limecove::Error>(())
    /// ```
    ///
    /// # Errors
    ///
    /// If it runs out of memory.
    pub fn places(&self, bytes: &[usize], encoding: Encoding) -> Result<Vec<Place>, Error> {
        let mut places = Vec::new();
        let got = places.try_reserve_exact(bytes.len());
        got.map_err(|_| Error::OutOfMemory)?;
        let mut walk = Walk::default();
        for (nth, byte) in bytes.iter().enumerate() {
            if nth == 0 || *byte < walk.index {
                walk = self.walk_to(*byte);
            }
            self.go_on(&mut walk, *byte, encoding);
            places.push(Place {
                line: walk.line,
                character: walk.character,
            });
        }
        Ok(places)
    }

    /// A walk that begins where the line of a byte does.
    fn walk_to(&self, byte: usize) -> Walk {
        let begun = self.starts.partition_point(|start| *start <= byte);
        Walk {
            line: begun - 1,
            index: self.starts[begun - 1],
            character: 0,
        }
    }

    /// Takes a walk to a byte, which is not before it.
    fn go_on(&self, walk: &mut Walk, byte: usize, encoding: Encoding) {
        while let Some(start) = self.starts.get(walk.line + 1).filter(|it| **it <= byte) {
            *walk = Walk {
                line: walk.line + 1,
                index: *start,
                character: 0,
            };
        }
        let end = self.line(walk.line + 1).map_or(walk.index, |it| it.end);
        let to = self.first_of(byte.min(end), walk.index);
        walk.character += match encoding {
            Encoding::Utf8 => to - walk.index,
            Encoding::Utf16 => Count::default().and(&self.document[walk.index..to]).utf16,
        };
        walk.index = to;
    }

    /// The first byte of the character that a byte is in, if that is not before `start`.
    fn first_of(&self, mut index: usize, start: usize) -> usize {
        for _ in 0..3 {
            if index > start && self.document.get(index).copied().map_or(false, is_inner) {
                index -= 1;
            }
        }
        index
    }

    /// The bytes of a line, with its line ending but for the last byte of that; of the last line all up to the end.
    fn whole_line(&self, number: usize) -> Option<Range<usize>> {
        let from = *self.starts.get(number.checked_sub(1)?)?;
        let next = self.starts.get(number);
        Some(from..next.map_or(self.document.len(), |next| next - 1))
    }

    /// The character of a column that is counted so: by halves to the last multiple of `STEP` before it, and then byte by byte.
    fn find(&self, line: usize, column: usize, of: fn(Count) -> usize) -> Option<usize> {
        let whole = self.whole_line(line)?;
        let before = of(self.count(whole.start));
        let wanted = before.checked_add(column.checked_sub(1)?)?;
        let step = self.counts.partition_point(|count| of(*count) <= wanted) - 1;
        let from = (step * STEP).max(whole.start);
        let (mut count, mut last) = (self.count(from), None);
        for index in from..=whole.end {
            let byte = self.document.get(index).copied();
            if byte.map_or(false, is_inner) {
                continue;
            }
            if of(count) == wanted {
                return Some(index);
            }
            // a character of two units
            if of(count) > wanted {
                return last;
            }
            last = Some(index);
            count = count.and(self.document.get(index..=index).unwrap_or_default());
        }
        None
    }

    /// What is before this index.
    fn count(&self, index: usize) -> Count {
        let step = index / STEP;
        self.counts[step].and(&self.document[step * STEP..index])
    }
}

impl fmt::Debug for LineIndex<'_> {
    fn fmt(&self, f: &mut fmt::Formatter<'_>) -> fmt::Result {
        let lines = self.line_count();
        f.debug_struct("LineIndex").field("lines", &lines).finish()
    }
}

#[cfg(test)]
mod tests {
    use super::*;

    /// What is looked up in a text, counted over its characters.
    fn compare(text: &str) {
        let index = LineIndex::new(text).unwrap();
        let (mut line, mut start) = (1, 0);
        for (at, character) in text.char_indices().chain([(text.len(), 'x')]) {
            let before = &text[start..at];
            let want = LineColumn {
                line,
                bytes: before.len() + 1,
                characters: before.chars().count() + 1,
                utf16: before.encode_utf16().count() + 1,
            };
            for inner in 0..character.len_utf8() {
                assert_eq!(index.line_column(at + inner), want, "{:?}", text);
            }
            assert_eq!(index.byte_at(line, want.bytes), Some(at));
            assert_eq!(index.byte_at_characters(line, want.characters), Some(at));
            for unit in 0..character.len_utf16() {
                assert_eq!(index.byte_at_utf16(line, want.utf16 + unit), Some(at));
            }
            let next = text.as_bytes().get(at + 1);
            if character == '\n' || character == '\r' && next != Some(&b'\n') {
                let bytes = index.line(line).unwrap();
                assert_eq!(&text[bytes], text[start..at].trim_end_matches('\r'));
                (line, start) = (line + 1, at + 1);
            }
        }
        assert_eq!(index.line_count(), line);
        assert_eq!(index.line(line), Some(start..text.len()));
        let end = index.line_column(text.len());
        for behind in [0, end.bytes + 1, usize::MAX] {
            assert_eq!(index.byte_at(line, behind), None);
        }
        for behind in [0, end.utf16 + 1, usize::MAX] {
            assert_eq!(index.byte_at_characters(line, behind), None);
            assert_eq!(index.byte_at_utf16(line, behind), None);
        }
        assert_eq!(
            (index.byte_at(0, 1), index.byte_at(line + 1, 1)),
            (None, None)
        );
        assert_eq!((index.line(0), index.line(line + 1)), (None, None));
        assert_eq!(index.line_column(usize::MAX).line, line);
    }

    #[test]
    fn columns_are_those_of_characters() {
        for text in ["", "a", "\n", "\r\n", "a\r\n\rb\n\n", "é😀\r\n€x"] {
            compare(text);
        }
        for n in [60, 63, 64, 65, 127, 128, 300] {
            compare(&"😀".repeat(n));
            compare(&"a😀é\n".repeat(n));
        }
    }

    /// The nearest byte of places, as they are counted by hand: lines of `a`, of `é😀b`, of nothing, and of `c`.
    #[test]
    fn the_nearest_place_is_before() {
        let text = "a\r\né😀b\n\rc";
        let index = LineIndex::new(text).unwrap();
        assert_eq!((text.len(), index.line_count()), (13, 4));
        for (line, character, in_utf8, in_utf16) in [
            (0, 0, 0, 0),
            (0, 1, 1, 1),
            // not between CR and LF
            (0, 2, 1, 1),
            (0, usize::MAX, 1, 1),
            (1, 0, 3, 3),
            // in `é`, and behind it
            (1, 1, 3, 5),
            // in front of `😀`, and between its halves
            (1, 2, 5, 5),
            (1, 3, 5, 9),
            (1, 4, 5, 10),
            (1, 5, 5, 10),
            (1, 6, 9, 10),
            (1, 7, 10, 10),
            (1, 8, 10, 10),
            (2, 0, 11, 11),
            (2, 1, 11, 11),
            (3, 0, 12, 12),
            (3, 1, 13, 13),
            (3, 2, 13, 13),
            (4, 0, 13, 13),
            (usize::MAX, usize::MAX, 13, 13),
        ] {
            let place = Place { line, character };
            let found = [Encoding::Utf8, Encoding::Utf16].map(|it| index.nearest(place, it));
            assert_eq!(found, [in_utf8, in_utf16], "{:?}", place);
        }
    }

    /// The places of all bytes of that text, in one walk; and out of order.
    #[test]
    fn many_places_are_found_in_a_walk() {
        let index = LineIndex::new("a\r\né😀b\n\rc").unwrap();
        let all: Vec<usize> = (0..=15).collect();
        let found = |bytes: &[usize], encoding| -> Vec<(usize, usize)> {
            let places = index.places(bytes, encoding).unwrap();
            places.iter().map(|it| (it.line, it.character)).collect()
        };
        #[rustfmt::skip]
        let in_utf16 = [
            (0, 0), (0, 1), (0, 1), (1, 0), (1, 0), (1, 1), (1, 1), (1, 1), (1, 1), (1, 3), (1, 4), (2, 0), (3, 0), (3, 1), (3, 1), (3, 1),
        ];
        assert_eq!(found(&all, Encoding::Utf16), in_utf16);
        #[rustfmt::skip]
        let in_utf8 = [
            (0, 0), (0, 1), (0, 1), (1, 0), (1, 0), (1, 2), (1, 2), (1, 2), (1, 2), (1, 6), (1, 7), (2, 0), (3, 0), (3, 1), (3, 1), (3, 1),
        ];
        assert_eq!(found(&all, Encoding::Utf8), in_utf8);
        let mixed = [12, 9, 10, 0, 9, 9, 5, usize::MAX, 1];
        assert_eq!(
            found(&mixed, Encoding::Utf16),
            mixed.map(|at| in_utf16[at.min(15)])
        );
        assert_eq!(found(&[], Encoding::Utf8), []);
    }

    /// Half a million places in a line of 1 MB, and in as many lines: in time of the square of that it took minutes.
    #[test]
    fn many_places_take_linear_time() {
        let text = "é".repeat(500_000);
        let bytes: Vec<usize> = (0..text.len()).step_by(2).collect();
        let index = LineIndex::new(&text).unwrap();
        let places = index.places(&bytes, Encoding::Utf16).unwrap();
        assert!(places.iter().map(|it| it.character).eq(0..500_000));
        let text = "a\n".repeat(500_000);
        let index = LineIndex::new(&text).unwrap();
        let places = index.places(&bytes, Encoding::Utf8).unwrap();
        assert!(places
            .iter()
            .map(|it| (it.line, it.character))
            .eq((0..500_000).map(|it| (it, 0))));
    }

    /// No bytes panic, and columns grow with the index.
    #[test]
    fn what_is_no_text_has_columns() {
        let bytes: Vec<u8> = (0..2000_usize).map(|n| (n * n / 7 + n) as u8).collect();
        for len in [0, 1, 255, 256, 257, 2000] {
            let index = LineIndex::new(&bytes[..len]).unwrap();
            let all: Vec<usize> = (0..=len + 1).collect();
            for encoding in [Encoding::Utf8, Encoding::Utf16] {
                let found = index.places(&all, encoding).unwrap();
                assert!(found.windows(2).all(|two| two[0] <= two[1]));
                assert!(found.iter().all(|it| index.nearest(*it, encoding) <= len));
            }
            let places: Vec<_> = (0..=len + 1).map(|at| index.line_column(at)).collect();
            assert!(places.windows(2).all(|two| two[0] <= two[1]));
            for place in places {
                let at = index.byte_at(place.line, place.bytes).unwrap();
                assert_eq!(index.line_column(at).line, place.line);
                for column in [place.characters, place.utf16, place.bytes] {
                    for found in [
                        index.byte_at_characters(place.line, column),
                        index.byte_at_utf16(place.line, column),
                    ] {
                        assert!(found.map_or(true, |at| at <= len));
                    }
                }
            }
        }
        let inner = LineIndex::new(&[0x80; 600]).unwrap();
        assert_eq!(inner.line_column(599).to_string(), "1:1");
    }

    /// Every tenth byte of a line of 1 MB is looked up.
    #[test]
    fn long_lines_are_no_slower() {
        let text = "é".repeat(500_000);
        let index = LineIndex::new(&text).unwrap();
        let mut columns = 0;
        for at in (0..text.len()).step_by(10) {
            let place = index.line_column(at);
            columns += place.characters;
            assert_eq!(index.byte_at_characters(1, place.characters), Some(at));
            assert_eq!(index.byte_at_utf16(1, place.utf16), Some(at));
        }
        assert_eq!(columns, 24_999_850_000);
    }
}
