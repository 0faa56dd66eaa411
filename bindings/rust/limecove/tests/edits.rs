//! Documents that are edited, against reading them anew.

use limecove::{
    differing, read_document, Definitions, Document, Encoding, Error, Event, Kind, LineIndex, Name,
    Options, Place, TabSize, TextOptions, Tree,
};
use std::ops::Range;

/// The same numbers at each run.
fn below(state: &mut u64, n: usize) -> usize {
    *state = state.wrapping_add(0x9e37_79b9_7f4a_7c15);
    let z = (*state ^ (*state >> 30)).wrapping_mul(0xbf58_476d_1ce4_e5b9);
    let z = (z ^ (z >> 27)).wrapping_mul(0x94d0_49bb_1331_11eb);
    ((z ^ (z >> 31)) % n as u64) as usize
}

const PIECES: [&str; 16] = [
    "a", " ", "\n", "\n\n", "# b\n\n", "*", "`", "[a]", "[a]: b\n", "- ", "> ", "```\n", "    ",
    "é", "🌳", "\r\n",
];

#[test]
fn events_are_read_anew() {
    let mut state = 1;
    for _ in 0..200 {
        let mut bytes: Vec<u8> = Vec::new();
        let mut document = Document::new(&bytes, &Options::default()).unwrap();
        for _ in 0..30 {
            let from = below(&mut state, bytes.len() + 1);
            let to = (from + below(&mut state, 4)).min(bytes.len());
            let with = PIECES[below(&mut state, PIECES.len())].as_bytes();
            let change = document.replace(from..to, with).unwrap();
            bytes.splice(from..to, with.iter().copied());
            assert_eq!(document.len(), bytes.len());
            assert_eq!(document.is_empty(), bytes.is_empty());
            assert_eq!(document.events().unwrap(), read_document(&bytes).unwrap());
            let sections = change.new_sections();
            assert_eq!(document.start_of(sections.start), change.bytes().start);
            assert_eq!(document.start_of(sections.end), change.bytes().end);
            assert!(
                change.old_sections().start == sections.start
                    && sections.end <= document.sections()
            );
            let others = document.others().unwrap();
            assert_eq!(others.len(), change.others());
            assert!(others
                .iter()
                .all(|other| !sections.contains(&other.section)));
        }
    }
}

/// Kind, name, byte, line, column and virtual byte of an event.
type Shown = (Kind, Name, usize, usize, usize, usize);

fn shown(event: &Event) -> Shown {
    let at = event.point();
    let (index, line) = (at.index, at.line);
    (event.kind(), event.name(), index, line, at.column, at.vs)
}

/// How many line endings there are.
fn endings(bytes: &[u8]) -> usize {
    let (mut count, mut rest) = (0, bytes);
    while let [first, behind @ ..] = rest {
        let two = rest.starts_with(b"\r\n");
        count += usize::from(matches!(first, b'\n' | b'\r'));
        rest = if two { &behind[1..] } else { behind };
    }
    count
}

/// Where links go: the bytes of each, its destination and title, and where the definition is that says so.
type Goes = (Range<usize>, Vec<u8>, Option<Vec<u8>>, Option<Range<usize>>);

fn goes_to(tree: &Tree<'_>) -> Vec<Goes> {
    let links = tree
        .nodes()
        .filter_map(|it| Some((it, it.link().unwrap()?)));
    let found = links.map(|(it, to)| (it.bytes(), to.destination, to.title, to.defined_at));
    found.collect()
}

/// What an edit is said to have changed: bytes and lines behind it have moved, those before it have not, and the old list of events with what differs
/// put in is the new one.
#[test]
fn what_changed_is_said() {
    let mut state = 7;
    for _ in 0..100 {
        let mut document = Document::new("", &Options::default()).unwrap();
        let mut definitions = Definitions::of_document(&document).unwrap();
        for _ in 0..30 {
            let (old, old_events) = (document.bytes().to_vec(), document.events().unwrap());
            let from = below(&mut state, old.len() + 1);
            let to = (from + below(&mut state, 4)).min(old.len());
            let with = PIECES[below(&mut state, PIECES.len())].repeat(1 + below(&mut state, 2));
            let change = document.replace(from..to, &with).unwrap();
            let (new, new_events) = (document.bytes(), document.events().unwrap());
            assert_eq!(new, [&old[..from], with.as_bytes(), &old[to..]].concat());
            assert_eq!(new_events, read_document(new).unwrap());

            let (was, is) = (change.old_bytes(), change.bytes());
            assert_eq!(old[..was.start], new[..is.start]);
            assert_eq!(old[was.end..], new[is.end..]);
            let lines =
                |of: &[u8], at: &Range<usize>| endings(&of[..at.start])..endings(&of[..at.end]);
            assert_eq!(change.old_lines(), lines(&old, &was));
            assert_eq!(change.new_lines(), lines(new, &is));
            assert_eq!(document.line_count(), endings(new) + 1);

            let (replaced, by) = differing(&old_events, &new_events);
            let mut spliced: Vec<Shown> = old_events[..replaced.start].iter().map(shown).collect();
            spliced.extend(new_events[by].iter().map(shown));
            let (lost, made) = (old.len(), new.len());
            spliced.extend(old_events[replaced.end..].iter().map(|it| {
                let (kind, name, index, line, column, vs) = shown(it);
                let line = line + endings(new) - endings(&old);
                (kind, name, index + made - lost, line, column, vs)
            }));
            assert!(spliced.into_iter().eq(new_events.iter().map(shown)));

            definitions.update(&document, &change).unwrap();
            assert_eq!(definitions, Definitions::of_document(&document).unwrap());
            let whole = Tree::new(new, &new_events).unwrap();
            let by_sections = (0..document.sections()).flat_map(|section| {
                let tree = document.tree(section..section + 1, &definitions).unwrap();
                goes_to(&tree)
            });
            assert!(by_sections.eq(goes_to(&whole)));
        }
    }
}

/// The same of three edits, by hand.
#[test]
fn what_changed_is_said_of_three_edits() {
    let mut document = Document::new("# a\n\nb\r\n\n# c\n", &Options::default()).unwrap();
    assert_eq!((document.sections(), document.line_count()), (3, 6));
    let change = document.replace(6..6, "\nd").unwrap();
    assert_eq!((change.old_bytes(), change.bytes()), (5..9, 5..11));
    assert_eq!((change.old_lines(), change.new_lines()), (2..4, 2..5));
    assert_eq!(document.bytes(), b"# a\n\nb\nd\r\n\n# c\n");
    assert_eq!((document.len(), document.line_count()), (15, 7));
    // the last line has no ending then
    let change = document.replace(14..15, "").unwrap();
    assert_eq!((change.old_bytes(), change.bytes()), (11..15, 11..14));
    assert_eq!((change.old_lines(), change.new_lines()), (5..6, 5..5));
    let change = document.replace(0..14, "").unwrap();
    assert_eq!((change.old_bytes(), change.bytes()), (0..14, 0..0));
    assert_eq!((change.old_lines(), change.new_lines()), (0..5, 0..0));
    assert_eq!((document.len(), document.line_count()), (0, 1));
    assert!(document.is_empty());
}

/// Of a list whose second item gets a letter, the events in front of the end of its text are as they were, and those behind its line have moved.
#[test]
fn events_that_are_alike_are_cut_off() {
    let mut document = Document::new("- a\n- b\n- c\n", &Options::default()).unwrap();
    let old = document.events().unwrap();
    document.replace(7..7, "x").unwrap();
    let new = document.events().unwrap();
    let (replaced, by) = differing(&old, &new);
    assert_eq!(replaced, by);
    // what ends or begins behind the text does so in column 5, and not in column 4
    assert!(old[replaced.clone()]
        .iter()
        .all(|it| it.to_string().ends_with(" 2:4 (7+0)")));
    assert!(new[by.clone()]
        .iter()
        .all(|it| it.to_string().ends_with(" 2:5 (8+0)")));
    assert_eq!(old[replaced.start].to_string(), "exit Data 2:4 (7+0)");
    assert_eq!(
        old[replaced.end - 1].to_string(),
        "enter LineEnding 2:4 (7+0)"
    );
    assert_eq!(old[replaced.end].to_string(), "exit LineEnding 3:1 (8+0)");
    assert_eq!(new[by.end].to_string(), "exit LineEnding 3:1 (9+0)");
    document.replace(7..8, "").unwrap();
    let (replaced, by) = differing(&old, &document.events().unwrap());
    assert!(replaced.is_empty() && by.is_empty());
}

/// The nearest byte of places, as they are counted by hand: lines of `a`, of `é😀b`, of nothing, and of `c`.
#[test]
fn the_nearest_place_is_before() {
    let document = Document::new("a\r\né😀b\n\rc", &Options::default()).unwrap();
    assert_eq!((document.len(), document.line_count()), (13, 4));
    for (line, character, in_utf8, in_utf16) in [
        (0, 0, 0, 0),
        (0, 1, 1, 1),
        (0, 2, 1, 1),
        (0, usize::MAX, 1, 1),
        (1, 0, 3, 3),
        (1, 1, 3, 5),
        (1, 2, 5, 5),
        (1, 3, 5, 9),
        (1, 5, 5, 10),
        (1, 6, 9, 10),
        (1, 8, 10, 10),
        (2, 1, 11, 11),
        (3, 0, 12, 12),
        (3, 2, 13, 13),
        (4, 0, 13, 13),
        (usize::MAX, usize::MAX, 13, 13),
    ] {
        let place = Place { line, character };
        let found = [Encoding::Utf8, Encoding::Utf16].map(|it| document.nearest(place, it));
        assert_eq!(found, [in_utf8, in_utf16], "{:?}", place);
    }
    let empty = Document::new("", &Options::default()).unwrap();
    let start = Place {
        line: 0,
        character: 0,
    };
    assert_eq!(empty.nearest(start, Encoding::Utf16), 0);
    assert_eq!(empty.line_count(), 1);
}

/// A document and an index of its lines mean the same by a place, and by the nearest one.
#[test]
fn places_are_those_of_lines() {
    let mut state = 3;
    for _ in 0..200 {
        let pieces = (0..12).map(|_| PIECES[below(&mut state, PIECES.len())]);
        let text: String = pieces.collect();
        let document = Document::new(&text, &Options::default()).unwrap();
        let lines = LineIndex::new(&text).unwrap();
        assert_eq!(document.line_count(), lines.line_count());
        for encoding in [Encoding::Utf8, Encoding::Utf16] {
            let all: Vec<usize> = (0..=text.len()).collect();
            let places = lines.places(&all, encoding).unwrap();
            for (at, place) in all.into_iter().zip(places) {
                if text.is_char_boundary(at) {
                    assert_eq!(document.place(at, encoding), Some(place), "{:?}", text);
                }
            }
            for line in 0..lines.line_count() + 2 {
                for character in 0..12 {
                    let place = Place { line, character };
                    let found = document.nearest(place, encoding);
                    assert_eq!(found, lines.nearest(place, encoding), "{:?}", text);
                    let there = document.index(place, encoding);
                    assert!(there.map_or(true, |it| it == found));
                }
            }
        }
    }
}

/// The definition of a label is the first one of the whole document, in whichever section it stands.
#[test]
fn links_go_to_other_sections() {
    let text = "[a] [b]\n\n# x\n\n[a]: one\n\n> [A]: two 't'\n\n[ß]: <th&lt;ree> (\\*)\n\n# y\n\n[SS][] ![z][a]\n";
    let mut document = Document::new(text, &Options::default()).unwrap();
    let mut definitions = Definitions::of_document(&document).unwrap();
    let all: Vec<_> = definitions
        .iter()
        .map(|it| (&it.label[..], it.bytes.clone()))
        .collect();
    assert_eq!(
        all,
        [
            (&b"A"[..], 14..22),
            (&b"A"[..], 26..38),
            (&b"SS"[..], 40..62)
        ]
    );
    assert_eq!((definitions.len(), definitions.is_empty()), (3, false));
    let found = definitions.get("ẞ".as_bytes()).unwrap().unwrap();
    assert_eq!(found.destination, b"th<ree");
    assert_eq!(found.title.as_deref(), Some(&b"*"[..]));
    assert_eq!(definitions.get(b"b"), Ok(None));

    let links = |document: &Document, definitions: &Definitions, at: usize| {
        let section = document.section_at(at);
        let tree = document.tree(section..section + 1, definitions).unwrap();
        let is_link = |it: &limecove::Node<'_>| matches!(it.name(), Name::Link | Name::Image);
        let found = tree.nodes().filter(is_link).map(|it| {
            assert_eq!(it.definition(), Ok(None));
            let to = it.link().unwrap().unwrap();
            assert!(to.definition.is_none());
            (
                String::from_utf8(to.destination).unwrap(),
                to.defined_at.unwrap(),
            )
        });
        found.collect::<Vec<_>>()
    };
    let to = |destination: &str, bytes| (destination.to_string(), bytes);
    assert_eq!(links(&document, &definitions, 0), [to("one", 14..22)]);
    let last = document.len() - 1;
    assert_eq!(
        links(&document, &definitions, last),
        [to("th<ree", 40..62), to("one", 14..22)]
    );
    // a tree that has not all of them knows of none
    let events = document.events_in(0..1).unwrap();
    let tree = Tree::new(document.bytes(), &events).unwrap();
    let link = tree.nodes().find(|it| it.name() == Name::Link).unwrap();
    assert_eq!(link.link(), Ok(None));

    // the second one counts when the first is gone; both move
    let change = document.replace(14..22, "[b]: c").unwrap();
    definitions.update(&document, &change).unwrap();
    assert_eq!(
        links(&document, &definitions, 0),
        [to("two", 24..36), to("c", 14..20)]
    );
}

/// A definition in the tree is found in it, but the first one of its label counts.
#[test]
fn the_first_definition_counts() {
    let text = "[a]: one\n\n# x\n\n[A]: two\n[b]: three\n\n[a] [b]\n";
    let document = Document::new(text, &Options::default()).unwrap();
    let definitions = Definitions::of_document(&document).unwrap();
    let sections = 1..document.sections();
    let tree = document.tree(sections, &definitions).unwrap();
    let links: Vec<_> = tree.nodes().filter(|it| it.name() == Name::Link).collect();
    assert_eq!(links[0].definition(), Ok(None));
    assert_eq!(links[0].link().unwrap().unwrap().destination, b"one");
    let here = links[1].definition().unwrap().unwrap();
    assert_eq!((here.text(), here.bytes()), (&b"[b]: three"[..], 24..34));
    let target = links[1].link().unwrap().unwrap();
    assert_eq!(
        (target.definition, target.defined_at),
        (Some(here), Some(24..34))
    );
    assert_eq!(target.destination, b"three");
}

/// Trees of documents are decoded as their options say.
#[test]
fn trees_know_how_text_was_read() {
    let plain = TextOptions::default().character_escape(false);
    let two = plain.tab_size(TabSize::new(2).unwrap());
    let document = Document::new("[a](\\*)\n\n ```\n\ta\n", &Options::default().text(two)).unwrap();
    let definitions = Definitions::default();
    let snapshot = document.snapshot().unwrap();
    for tree in [
        document.tree(0..document.sections(), &definitions).unwrap(),
        snapshot.tree().unwrap(),
    ] {
        let link = tree.nodes().find(|it| it.name() == Name::Link).unwrap();
        assert_eq!(link.link().unwrap().unwrap().destination, b"\\*");
        let code = tree
            .nodes()
            .find(|it| it.name() == Name::CodeFenced)
            .unwrap();
        assert_eq!(code.decoded().unwrap(), b" a\n");
    }
}

/// A snapshot stays as the document was, and is asked by several threads.
#[test]
fn snapshots_stay() {
    let mut document = Document::new("[a]\n\n[a]: b\n", &Options::default()).unwrap();
    let before = std::sync::Arc::new(document.snapshot().unwrap());
    document.replace(0..12, "c").unwrap();
    let threads: Vec<_> = (0..4)
        .map(|_| {
            let snapshot = before.clone();
            std::thread::spawn(move || {
                let tree = snapshot.tree().unwrap();
                let to = tree.nodes().find_map(|it| it.link().unwrap()).unwrap();
                (to.destination, snapshot.lines().unwrap().line_count())
            })
        })
        .collect();
    for thread in threads {
        assert_eq!(thread.join().unwrap(), (b"b".to_vec(), 4));
    }
    assert_eq!(before.bytes(), b"[a]\n\n[a]: b\n");
    assert_eq!(before.events(), read_document(before.bytes()).unwrap());
    let shown = format!(
        "Snapshot {{ bytes: 12, events: {} }}",
        before.events().len()
    );
    assert_eq!(format!("{:?}", before), shown);
    assert_eq!(document.bytes(), b"c");
}

#[test]
fn what_there_is_not_is_refused() {
    let mut document = Document::new("a\n🌳b", &Options::default()).unwrap();
    let refused = document.replace(8..8, "c").unwrap_err();
    assert!(matches!(
        refused,
        Error::NoSuchBytes {
            from: 8,
            to: 8,
            len: 7,
            ..
        }
    ));
    assert_eq!(refused.to_string(), "no such bytes: 8..8 of 7");
    #[allow(clippy::reversed_empty_ranges)]
    let backwards = 2..1;
    let refused = document.replace(backwards, "c").unwrap_err();
    assert_eq!(refused.to_string(), "no such bytes: 2..1 of 7");
    let refused = document.events_in(0..2).unwrap_err();
    assert!(matches!(
        refused,
        Error::NoSuchSections {
            from: 0,
            to: 2,
            count: 1,
            ..
        }
    ));
    assert_eq!(refused.to_string(), "no such sections: 0..2 of 1");
    assert_eq!((document.len(), document.bytes()), (7, "a\n🌳b".as_bytes()));
    let refused = document.section_bytes(1).unwrap_err();
    assert_eq!(refused.to_string(), "no such sections: 1..2 of 1");
    let refused = document.section_bytes(usize::MAX).unwrap_err();
    assert!(matches!(refused, Error::NoSuchSections { count: 1, .. }));
    assert_eq!(document.section_bytes(0).unwrap(), "a\n🌳b".as_bytes());
    assert_eq!(document.section_at(7), 1);
    let place = |line, character| Place { line, character };
    assert_eq!(document.place(6, Encoding::Utf16), Some(place(1, 2)));
    assert_eq!(document.place(6, Encoding::Utf8), Some(place(1, 4)));
    assert_eq!(document.place(4, Encoding::Utf16), None);
    assert_eq!(document.index(place(1, 1), Encoding::Utf16), None);
    assert_eq!(document.index(place(1, 9), Encoding::Utf16), Some(7));
    assert_eq!(document.index(place(2, 0), Encoding::Utf16), None);
    assert_eq!(format!("{:?}", document), "Document { sections: 1 }");
}

#[test]
fn sections_have_the_bytes() {
    let text = "# a\n\n[b][c]\r\n\n> d\n\n[C]: e\n";
    let document = Document::new(text, &Options::default()).unwrap();
    assert!(document.sections() > 2);
    let bytes = (0..document.sections()).map(|it| document.section_bytes(it).unwrap());
    let bytes: Vec<_> = bytes.collect();
    assert_eq!(bytes[0], b"# a\n\n");
    assert_eq!(bytes.concat(), text.as_bytes());
}

#[test]
fn labels_lead_to_the_first_definition() {
    let text = "# a\n\n> [ B\n> c ]: d 'e'\n\n[b c]: f\n\n[g]: h\n";
    let mut document = Document::new(text, &Options::default()).unwrap();
    let found = document.definition_of("b \n C").unwrap().unwrap();
    assert_eq!(found.section, 1);
    assert_eq!(&document.bytes()[found.bytes], b"[ B\n> c ]: d 'e'");
    let found = document.definition_of("G").unwrap().unwrap();
    assert_eq!(&document.bytes()[found.bytes], b"[g]: h");
    assert_eq!(document.definition_of("b"), Ok(None));
    assert_eq!(document.definition_of(""), Ok(None));
    // the first one goes
    document.replace(7..8, "x").unwrap();
    let found = document.definition_of("b c").unwrap().unwrap();
    assert_eq!(&document.bytes()[found.bytes], b"[b c]: f");
    document.replace(0..document.len(), "").unwrap();
    assert_eq!(document.definition_of("g"), Ok(None));
}

/// The labels of a document that nothing defines.
fn undefined(document: &Document) -> Vec<&str> {
    let found = document.undefined(0..document.sections()).unwrap();
    let labels = found.into_iter().map(|it| &document.bytes()[it.label]);
    labels.map(|it| std::str::from_utf8(it).unwrap()).collect()
}

#[test]
fn references_that_nothing_defines_are_told() {
    let text = "[a][b] `[c]` [d][] ![e] [f]\n\n> [g\n> h] \\[i] <http://[j]> [k](u)\n\n# *[l* m] [ ] [n [o]]\n\n[F]: u\n";
    let mut document = Document::new(text, &Options::default()).unwrap();
    assert_eq!(undefined(&document), ["b", "d", "e", "g\n> h", "l* m", "o"]);
    assert_eq!(document.sections(), 4);
    let found = document.undefined(1..2).unwrap();
    assert_eq!((found.len(), &found[0].label), (1, &(32..37)));
    assert!(document.undefined(3..5).is_err());
    // definitions come, and one goes
    document.replace(0..0, "[O]: v\n\n[ D ]: v\n\n").unwrap();
    let end = document.len();
    document.replace(end - 7..end, "").unwrap();
    assert_eq!(undefined(&document), ["b", "e", "f", "g\n> h", "l* m"]);
}

/// What is replaced, and by what.
type Edit<'a> = (Range<usize>, &'a [u8]);

#[test]
fn several_edits_are_one() {
    let mut document = Document::new("[a] [b]\n\n[b]: c\n", &Options::default()).unwrap();
    let change = document
        .replace_all(&[
            (5..6, b"de"),
            (10..11, b"de"),
            (14..14, b"<"),
            (15..15, b">"),
        ])
        .unwrap();
    assert_eq!(change.new_sections(), 0..2);
    let edited = "[a] [de]\n\n[de]: <c>\n";
    assert_eq!(document.bytes(), edited.as_bytes());
    assert_eq!(document.events().unwrap(), read_document(edited).unwrap());
    #[allow(clippy::reversed_empty_ranges)]
    let backwards = 3..2;
    let refused: [(&[Edit<'_>], &str); 6] = [
        (&[(5..6, b"x"), (4..5, b"x")], "4..5"),
        (&[(0..2, b"x"), (1..3, b"x")], "1..3"),
        (&[(0..1, b"x"), (20..30, b"x")], "20..30"),
        (&[(30..30, b"x"), (30..31, b"x")], "30..30"),
        (&[(0..1, b"x"), (backwards.clone(), b"x")], "3..2"),
        (&[(backwards, b"x"), (4..5, b"x")], "3..2"),
    ];
    for (edits, which) in refused {
        let refused = document.replace_all(edits).unwrap_err();
        let shown = format!("no such bytes: {which} of {}", edited.len());
        assert_eq!(refused.to_string(), shown);
    }
    let nothing = document.replace_all(&[]).unwrap();
    assert!(nothing.new_sections().is_empty() && nothing.old_sections().is_empty());
    assert_eq!(document.bytes(), edited.as_bytes());
    assert_eq!(document.events().unwrap(), read_document(edited).unwrap());
}

/// Several random edits at once are those edits one after the other, from the last to the first.
#[test]
fn several_random_edits_are_one() {
    let mut state = 7;
    let mut document = Document::new("[a]: b\n\n[a]\n", &Options::default()).unwrap();
    for _ in 0..500 {
        let mut bytes = document.bytes().to_vec();
        let (mut edits, mut at) = (Vec::<Edit<'_>>::new(), 0);
        for _ in 0..below(&mut state, 4) {
            let from = at + below(&mut state, bytes.len() - at + 1);
            at = from + below(&mut state, (bytes.len() - from).min(3) + 1);
            let with = PIECES[below(&mut state, PIECES.len())];
            edits.push((from..at, with.as_bytes()));
        }
        let old = bytes.clone();
        let change = document.replace_all(&edits).unwrap();
        for (range, with) in edits.iter().rev() {
            bytes.splice(range.clone(), with.iter().copied());
        }
        assert_eq!(document.bytes(), bytes);
        assert_eq!(document.events().unwrap(), read_document(&bytes).unwrap());
        let (was, is) = (change.old_bytes(), change.bytes());
        assert_eq!(old[..was.start], bytes[..is.start]);
        assert_eq!(old[was.end..], bytes[is.end..]);
    }
}

/// A definition is told as definitions of the whole document have it.
#[test]
fn definitions_are_told() {
    let (mut state, mut told) = (3, 0);
    let pieces = [
        "[a]: b\n",
        "[A]:\nc\n",
        "[B c]: d\n",
        "\n",
        "> ",
        "- ",
        "e\n",
        "[b\nC]: f\n",
    ];
    for _ in 0..300 {
        let text: String = (0..below(&mut state, 12))
            .map(|_| pieces[below(&mut state, pieces.len())])
            .collect();
        let document = Document::new(&text, &Options::default()).unwrap();
        let definitions = Definitions::of_document(&document).unwrap();
        for label in ["a", " b\tC ", "e"] {
            let found = document.definition_of(label).unwrap();
            let want = definitions.get(label.as_bytes()).unwrap();
            let bytes = found.as_ref().map(|it| it.bytes.clone());
            assert_eq!(bytes, want.map(|it| it.bytes.clone()), "{text:?}");
            if let Some(it) = found {
                assert_eq!(document.section_at(it.bytes.start), it.section);
                told += 1;
            }
        }
    }
    assert!(told > 100);
}
