//! In what two lists of events differ.

use crate::{Event, Link};
use std::ops::Range;

/// In what two lists of events differ, as those of the old and of the new sections of an edit: which events of the one and of the other are left
/// if those that are alike at both ends are cut off.
///
/// Events are alike at the front if they are as far behind the first event of their list, in bytes and in lines, and at the back if they are as
/// far before the last one: all else in them is the same. So old events of sections are compared with new ones wherever the sections stand. What is
/// alike at the back has moved by as much as the last event has. It takes time in proportion to the events.
///
/// ```
/// use limecove::{differing, Document, Options};
///
/// let mut document = Document::new("- a\n- b\n- c\n", &Options::default())?;
/// let old = document.events()?;
/// let change = document.replace(7..7, "d\n- e")?;
/// let new = document.events_in(change.new_sections())?;
/// let (replaced, by) = differing(&old, &new);
/// assert_eq!(old.len() - replaced.len(), new.len() - by.len());
/// assert!(replaced.len() < 4 && by.len() < 20);
/// # Ok::<(), limecove::Error>(())
/// ```
pub fn differing(old: &[Event], new: &[Event]) -> (Range<usize>, Range<usize>) {
    let both = old.iter().zip(new);
    let fronts = (old.first(), new.first());
    let front = both.take_while(|it| is_moved(*it, fronts, 0)).count();
    let ends = (old.last(), new.last());
    let both = old[front..].iter().rev().zip(new[front..].iter().rev());
    let by = new.len().wrapping_sub(old.len());
    let back = both.take_while(|it| is_moved(*it, ends, by)).count();
    (front..old.len() - back, front..new.len() - back)
}

/// Whether an event is another one, moved as two events of their lists are. `by` is how far their indices in the lists are apart.
fn is_moved(
    (one, other): (&Event, &Event),
    as_are: (Option<&Event>, Option<&Event>),
    by: usize,
) -> bool {
    let (base, moved) = match as_are {
        (Some(base), Some(moved)) => (base.0, moved.0),
        _ => return false,
    };
    let far = |of: usize, from: usize| of.wrapping_sub(from);
    let index = |of: Option<usize>, by: usize| of.map(|it| it.wrapping_add(by));
    let link = |of: &Event, by: usize| {
        of.link().map(|it| {
            let Link {
                previous,
                next,
                content,
            } = it;
            (index(previous, by), index(next, by), content)
        })
    };
    let (a, b) = (one.0, other.0);
    (a.kind, a.name, a.column, a.vs) == (b.kind, b.name, b.column, b.vs)
        && far(a.index, base.index) == far(b.index, moved.index)
        && far(a.line, base.line) == far(b.line, moved.line)
        && link(one, by) == link(other, 0)
}

#[cfg(test)]
mod tests {
    use super::*;
    use crate::event::tests::event;
    use crate::{Kind, Name};

    /// Data of these sizes, one behind another, from this byte on.
    fn data(from: usize, sizes: &[usize]) -> Vec<Event> {
        let (mut at, mut all) = (from, Vec::new());
        for size in sizes {
            all.push(event(Kind::Enter, Name::Data, at));
            at += size;
            all.push(event(Kind::Exit, Name::Data, at));
        }
        all
    }

    /// Columns are those of the bytes here: what is behind a change of size has others, but in further lines.
    fn in_lines(events: &[Event]) -> Vec<Event> {
        let lines = events.iter().enumerate().map(|(nth, it)| {
            let mut event = *it;
            event.0.line = nth / 2 + 1;
            event.0.column = 1 + nth % 2;
            event
        });
        lines.collect()
    }

    #[test]
    fn ends_that_are_alike_are_cut_off() {
        let of = |from, sizes: &[usize]| in_lines(&data(from, sizes));
        let old = of(0, &[1, 2, 3, 4]);
        for (new, want) in [
            (of(0, &[1, 2, 3, 4]), (8..8, 8..8)),
            // elsewhere
            (of(90, &[1, 2, 3, 4]), (8..8, 8..8)),
            // one is longer: from its end on all has moved, and no more
            (of(0, &[1, 2, 9, 4]), (5..5, 5..5)),
            (of(7, &[1, 2, 9, 4]), (5..5, 5..5)),
            (of(0, &[9, 2, 3, 4]), (1..1, 1..1)),
            (of(0, &[1, 2, 3, 9]), (7..7, 7..7)),
            // one is gone, one has come
            (of(0, &[1, 3, 4]), (3..5, 3..3)),
            (of(0, &[1, 2, 2, 3, 4]), (5..5, 5..7)),
            (of(0, &[]), (0..8, 0..0)),
        ] {
            assert_eq!(differing(&old, &new), want, "{:?}", new);
        }
        assert_eq!(differing(&[], &old), (0..0, 0..8));
        assert_eq!(differing(&[], &[]), (0..0, 0..0));
    }
}
