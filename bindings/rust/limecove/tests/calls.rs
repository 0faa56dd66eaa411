//! Calls each function of the static library through its wrapper.

use limecove::{
    spans, spans_by_start, tokenize, tokenize_text, tokenize_text_in, Content, Error, Machine,
    Name, Options, Reading, TabSize, TextOptions, UnknownName,
};
use std::collections::HashSet;
use std::num::NonZeroUsize;

fn lines(document: &[u8], options: &Options) -> String {
    let events = tokenize(document, options).expect("it is read");
    events.iter().map(|event| format!("{event}\n")).collect()
}

fn by(machine: Machine) -> Options {
    Options::default().machine(machine).deep(false)
}

fn tabs(tab_size: usize) -> TextOptions {
    TextOptions::default().tab_size(TabSize::new(tab_size).expect("1 to 16"))
}

#[test]
fn lines_are_those_of_the_program() {
    let expected = "enter Paragraph 1:1 (0+0)\nenter Data 1:1 (0+0)\nexit Data 1:2 (1+0)\nexit Paragraph 1:2 (1+0)\n\
        enter LineEnding 1:2 (1+0)\nexit LineEnding 2:1 (3+0)\nenter Paragraph 2:1 (3+0)\nenter Data 2:1 (3+0)\n\
        exit Data 2:2 (4+0)\nexit Paragraph 2:2 (4+0)\n";
    assert_eq!(lines(b"a\r\nb", &by(Machine::Lines)), expected);
    for n in 1..5 {
        let cut = by(Machine::Lines).cut(NonZeroUsize::new(n));
        assert_eq!(lines(b"a\r\nb", &cut), expected);
    }
    let two = by(Machine::Lines).text(tabs(2));
    assert_eq!(
        lines(b"\ta", &two),
        "enter Paragraph 1:1 (0+0)\nenter Data 1:1 (0+0)\nexit Data 1:4 (2+0)\nexit Paragraph 1:4 (2+0)\n"
    );
}

#[test]
fn spans_of_text_are_found() {
    let document = b"a `b\nc` <https://d.e> \\* `f";
    let found: Vec<_> = spans(&tokenize(document, &Options::default()).unwrap())
        .filter(|span| {
            matches!(
                span.name,
                Name::CodeText | Name::Autolink | Name::CharacterEscape
            )
        })
        .map(|span| (span.to_string(), &document[span.bytes()]))
        .collect();
    assert_eq!(
        found,
        [
            ("CodeText 1:3-2:3".to_string(), &b"`b\nc`"[..]),
            ("Autolink 2:4-2:17".to_string(), &b"<https://d.e>"[..]),
            ("CharacterEscape 2:18-2:20".to_string(), &b"\\*"[..]),
        ]
    );
}

/// The text of a quoted paragraph, and ranges that are none.
#[test]
fn ranges_are_read_as_one_text() {
    let text = TextOptions::default();
    let document = "x`a\r\n> b`y";
    let found: Vec<_> = spans(&tokenize_text_in(document, &[1..5, 7..9], &text).unwrap())
        .map(|span| (span.name, span.bytes()))
        .collect();
    assert_eq!(
        found,
        [
            (Name::CodeTextSequence, 1..2),
            (Name::CodeTextData, 2..3),
            (Name::LineEnding, 3..5),
            (Name::CodeTextData, 7..8),
            (Name::CodeTextSequence, 8..9),
            (Name::CodeText, 1..9),
        ]
    );
    assert_eq!(tokenize_text_in(document, &[], &text), Ok(Vec::new()));
    let whole = tokenize_text_in(document, std::slice::from_ref(&(0..10)), &text);
    assert_eq!(whole, tokenize_text(document, &text));
    let backwards = std::ops::Range { start: 1, end: 0 };
    for (ranges, wrong) in [
        (&[0..1, 1..11][..], 1),
        (&[backwards], 0),
        (&[0..2, 1..2], 1),
        (&[0..1, 2..3], 1),
        (&[0..3, 6..7], 1),
        (&[0..5, 7..9, 9..9, 10..10], 3),
        (&[0..5, 5..5, 7..8, 0..1], 3),
        (std::slice::from_ref(&(11..11)), 0),
    ] {
        let refused = tokenize_text_in(document, ranges, &text).unwrap_err();
        let (from, to) = (ranges[wrong].start, ranges[wrong].end);
        let said = format!("the ranges are no text: range {wrong} is {from}..{to} of 10");
        assert_eq!(refused.to_string(), said, "{:?}", ranges);
        assert!(matches!(refused, Error::NoSuchRanges { index, len: 10, .. } if index == wrong));
    }
}

#[test]
fn chunks_are_linked() {
    let events = tokenize(b"a\nb", &by(Machine::Paragraphs)).unwrap();
    let links: Vec<_> = events.iter().map(|event| event.link()).collect();
    let text = Some(Content::Text);
    let shown = links.iter().map(|link| match link {
        Some(link) => (Some(link.content), link.previous, link.next),
        None => (None, None, None),
    });
    let none = (None, None, None);
    let (first, second) = ((text, None, Some(3)), (text, Some(1), None));
    assert!(shown.eq([none, first, none, second, none, none]));
    let deep = tokenize(b"a\nb", &Options::default()).unwrap();
    assert!(deep.iter().all(|event| event.link().is_none()));
}

fn names(document: &[u8], options: &TextOptions) -> Vec<String> {
    spans(&tokenize_text(document, options).unwrap())
        .map(|span| span.name.to_string())
        .collect()
}

#[test]
fn text_is_read_without_paragraphs() {
    assert_eq!(
        names(b"`a`\n\nb", &tabs(4)),
        [
            "CodeTextSequence",
            "CodeTextData",
            "CodeTextSequence",
            "CodeText",
            "LineEnding",
            "LineEnding",
            "Data"
        ]
    );
}

/// A document that is one construct, the name of the construct's span, and what turns it off.
type Construct = (
    &'static str,
    &'static str,
    fn(TextOptions, bool) -> TextOptions,
);

/// With a construct off, the bytes of it are data, in both functions.
#[test]
fn constructs_can_be_off() {
    let constructs: [Construct; 3] = [
        ("`a`", "CodeText", TextOptions::code_text),
        ("<ab:c>", "Autolink", TextOptions::autolink),
        ("\\*", "CharacterEscape", TextOptions::character_escape),
    ];
    for (document, name, turned) in constructs {
        let on = TextOptions::default();
        let off = turned(on, false);
        let found = |options: &TextOptions| names(document.as_bytes(), options);
        assert!(found(&on).iter().any(|found| found == name));
        assert!(found(&off).iter().all(|found| found == "Data"));
        assert_eq!(found(&turned(off, true)), found(&on));
        let whole = Options::default().text(off);
        assert!(!lines(document.as_bytes(), &whole).contains(name));
        assert!(lines(document.as_bytes(), &Options::default()).contains(name));
    }
}

/// A document, the name of a span in it, and what turns its construct on or off.
type Whole = (&'static str, Name, fn(Options, bool) -> Options);

/// With a construct of blocks or of labels off, there is none of it.
#[test]
fn constructs_of_whole_documents_can_be_off() {
    let constructs: [Whole; 13] = [
        ("> a", Name::BlockQuote, Options::block_quote),
        ("- a", Name::ListItem, Options::list_item),
        ("[a]: b", Name::Definition, Options::definition),
        ("~~~", Name::CodeFenced, Options::code_fenced),
        ("    a", Name::CodeIndented, Options::code_indented),
        ("# a", Name::HeadingAtx, Options::heading_atx),
        ("a\n=", Name::HeadingSetext, Options::heading_setext),
        ("<b>", Name::HtmlFlow, Options::html_flow),
        ("***", Name::ThematicBreak, Options::thematic_break),
        ("[a](b)", Name::Link, |all, is_on| {
            all.text(TextOptions::default().label_start_link(is_on))
        }),
        ("![a](b)", Name::Image, |all, is_on| {
            all.text(TextOptions::default().label_start_image(is_on))
        }),
        ("[a](b)", Name::Link, |all, is_on| {
            all.text(TextOptions::default().label_end(is_on))
        }),
        ("![a](b)", Name::Image, |all, is_on| {
            all.text(TextOptions::default().label_end(is_on))
        }),
    ];
    for (document, name, turned) in constructs {
        let found = |options: &Options| {
            let events = tokenize(document, options).unwrap();
            events.iter().any(|event| event.name() == name)
        };
        let off = turned(Options::default(), false);
        assert!(found(&Options::default()), "{}", document);
        assert!(!found(&off) && found(&turned(off, true)), "{}", document);
    }
}

/// Strikethrough is on only if it is asked for.
#[test]
fn strikethrough_can_be_on() {
    let found = |text: TextOptions| {
        let events = tokenize("~a~ ~~b~~", &Options::default().text(text)).unwrap();
        events
            .iter()
            .filter(|event| event.name() == Name::GfmStrikethrough)
            .count()
    };
    let on = TextOptions::default().gfm_strikethrough(true);
    assert_eq!((found(TextOptions::default()), found(on)), (0, 4));
    assert_eq!(found(on.gfm_strikethrough(false)), 0);
    assert_eq!(found(on.attention(false)), 4);
}

/// The public machines are those that read Markdown, and each has its name.
#[test]
fn test_machines_are_not_in_the_list() {
    use Machine::{Document, Flow, Paragraphs, Text};
    assert_eq!(Machine::ALL, [Paragraphs, Text, Flow, Document]);
    assert_eq!(Machine::default(), Document);
    for &machine in Machine::ALL.iter().chain(Machine::FOR_TESTS) {
        assert_eq!(machine.as_str().parse(), Ok(machine));
    }
}

#[test]
fn tab_sizes_are_from_1_to_16() {
    for columns in [0, 17, usize::MAX] {
        assert_eq!(TabSize::new(columns), None);
    }
    for columns in 1..=16 {
        let size = TabSize::new(columns).unwrap();
        assert_eq!(size.get(), columns);
        let options = TextOptions::default().tab_size(size);
        let events = tokenize_text("\ta", &options).unwrap();
        assert_eq!(events[1].point().column, columns + 2);
    }
}

/// No options are refused: `deep` makes no difference to a machine that links nothing.
#[test]
fn each_machine_can_be_deep() {
    for &machine in Machine::ALL.iter().chain(Machine::FOR_TESTS) {
        let flat = tokenize("a `b`", &by(machine)).unwrap();
        let deep = tokenize("a `b`", &Options::default().machine(machine)).unwrap();
        assert_eq!(flat != deep, machine.links_text());
    }
}

#[test]
fn spans_begin_in_their_order() {
    let events = tokenize("a `b`\nc", &Options::default()).unwrap();
    let begun = spans_by_start(&events).unwrap();
    let shown: Vec<_> = begun.iter().map(|span| span.to_string()).collect();
    assert_eq!(
        shown,
        [
            "Paragraph 1:1-2:2",
            "Data 1:1-1:3",
            "CodeText 1:3-1:6",
            "CodeTextSequence 1:3-1:4",
            "CodeTextData 1:4-1:5",
            "CodeTextSequence 1:5-1:6",
            "LineEnding 1:6-2:1",
            "Data 2:1-2:2"
        ]
    );
    let mut ended: Vec<_> = spans(&events).collect();
    ended.sort_by_key(|span| (span.start, span.depth));
    assert_eq!(ended, begun);
    assert_eq!(begun[2].text(b"a `b`\nc"), b"`b`");
}

#[test]
fn names_are_texts() {
    for &name in Name::ALL {
        assert_eq!(name.as_str().parse(), Ok(name));
        assert_eq!(name.to_string(), format!("{:?}", name));
    }
    assert_eq!("codeText".parse::<Name>(), Err(UnknownName));
    assert_eq!("Text".parse(), Ok(Machine::Text));
    assert!(Name::Data.is_void() && !Name::Paragraph.is_void());
}

#[test]
fn the_empty_document_has_no_events() {
    assert_eq!(tokenize(b"", &Options::default()), Ok(vec![]));
    assert_eq!(tokenize_text(b"", &TextOptions::default()), Ok(vec![]));
}

#[test]
fn many_events_are_all_there() {
    let document = b"a\n".repeat(10_000);
    let events = tokenize(&document, &by(Machine::Lines)).unwrap();
    assert_eq!(events.len(), 60_000);
    assert_eq!(
        events[59_999].to_string(),
        "exit LineEnding 10001:1 (20000+0)"
    );
    assert_eq!(
        events.iter().collect::<HashSet<_>>().len(),
        60_000,
        "no two are equal"
    );
}

#[test]
fn threads_can_read_at_the_same_time() {
    let expected = lines(b"a `b` c\nd", &Options::default());
    std::thread::scope(|scope| {
        for _ in 0..4 {
            scope.spawn(|| {
                for _ in 0..100 {
                    assert_eq!(lines(b"a `b` c\nd", &Options::default()), expected);
                }
            });
        }
    });
}

/// A reading is read by shared references, in another thread too, and is closed there.
#[test]
fn readings_are_shared_and_sent() {
    let document = "a `b` *c*\n".repeat(100);
    let expected = tokenize(&document, &Options::default()).unwrap();
    let reading = Reading::open(&document, &Options::default()).unwrap();
    let (mut one, mut other) = (reading.iter(), (&reading).into_iter());
    for (index, event) in expected.iter().enumerate() {
        assert_eq!(one.next(), Some(*event));
        assert_eq!(
            reading.get(expected.len() - 1 - index).map(|it| it.kind()),
            { Some(expected[expected.len() - 1 - index].kind()) }
        );
        assert_eq!(other.next(), Some(*event));
        assert_eq!(one.clone().count(), expected.len() - 1 - index);
    }
    assert_eq!((one.next(), reading.get(expected.len())), (None, None));
    let moved = std::thread::spawn(move || {
        let events = reading.to_vec();
        drop(reading);
        events
    });
    assert_eq!(moved.join().unwrap(), Ok(expected.clone()));
    let locked = std::sync::Mutex::new(Reading::open(&document, &Options::default()).unwrap());
    std::thread::scope(|scope| {
        for _ in 0..4 {
            scope.spawn(|| {
                for (index, event) in expected.iter().enumerate() {
                    assert_eq!(locked.lock().unwrap().get(index).as_ref(), Some(event));
                }
            });
        }
    });
}

#[test]
fn values_are_shown() {
    let events = tokenize(b"a", &by(Machine::Lines)).unwrap();
    assert_eq!(
        format!("{:?}", events[1]),
        "Event { kind: Enter, name: Data, point: Point { index: 0, vs: 0, line: 1, column: 1 }, link: None }"
    );
    assert_eq!(Machine::Lines.to_string(), "Lines");
    assert_eq!(Error::TooLong.to_string(), "document too long");
}
