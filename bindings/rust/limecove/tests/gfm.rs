//! Autolink literals, task list items, tables and footnotes of GFM among the events: what they are, where they lead, and where there are none. Expectations are
//! typed by GFM's sections 4.10, 5.3 and 6.9; those of footnotes by what GitHub reads.

use limecove::{
    tokenize, Alignment, Document, Event, HtmlOptions, Machine, Name, Options, TextOptions, Tree,
};

fn literals() -> Options {
    Options::default().gfm_autolink_literal(true)
}

fn checks() -> Options {
    Options::default().gfm_task_list_item(true)
}

/// Each literal of a document: its bytes, and where it leads.
fn found(document: &str) -> Vec<(String, String)> {
    let tree = Tree::read(document, &literals()).expect("it is read");
    let is_literal = |name: Name| name.as_str().starts_with("GfmAutolinkLiteral");
    let text = |bytes: &[u8]| String::from_utf8(bytes.to_vec()).expect("it is UTF-8");
    let all = tree.nodes().filter(|node| is_literal(node.name()));
    let said = all.map(|node| {
        let target = node
            .link()
            .expect("there is memory")
            .expect("it leads somewhere");
        assert_eq!(target.label.expect("it shows itself").text(), node.text());
        assert_eq!(node.decoded().expect("there is memory"), node.text());
        assert_eq!((target.title, target.definition), (None, None));
        (text(node.text()), text(&target.destination))
    });
    said.collect()
}

/// A document, the bytes of its literals, and where they lead.
type Case = (&'static str, &'static [(&'static str, &'static str)]);

const LITERALS: &[Case] = &[
    // "the text www. is found followed by a valid domain"; what may be before it
    ("www.a.b", &[("www.a.b", "http://www.a.b")]),
    ("see www.a.b/c d", &[("www.a.b/c", "http://www.a.b/c")]),
    ("(www.a.b", &[("www.a.b", "http://www.a.b")]),
    ("xwww.a.b", &[]),
    ("www.a_b.c", &[]),
    ("www.", &[]),
    // the end: punctuation, parentheses, what looks like a reference, `<`
    ("www.a.b.", &[("www.a.b", "http://www.a.b")]),
    ("www.a.b/(c)", &[("www.a.b/(c)", "http://www.a.b/(c)")]),
    ("(www.a.b/(c))", &[("www.a.b/(c)", "http://www.a.b/(c)")]),
    (
        "www.a.b/(c))+d",
        &[("www.a.b/(c))+d", "http://www.a.b/(c))+d")],
    ),
    (
        "www.a.b/?c=d&e=f",
        &[("www.a.b/?c=d&e=f", "http://www.a.b/?c=d&e=f")],
    ),
    (
        "www.a.b/?c=d&e;",
        &[("www.a.b/?c=d", "http://www.a.b/?c=d")],
    ),
    ("www.a.b/c<d", &[("www.a.b/c", "http://www.a.b/c")]),
    // protocols
    ("http://a.b", &[("http://a.b", "http://a.b")]),
    (
        "a https://b.c/d e ftp://f.g",
        &[
            ("https://b.c/d", "https://b.c/d"),
            ("ftp://f.g", "ftp://f.g"),
        ],
    ),
    ("\"http://a.b", &[("http://a.b", "http://a.b")]),
    ("http:/a.b", &[]),
    // addresses of mail
    ("a@b.c", &[("a@b.c", "mailto:a@b.c")]),
    ("no a@b+c.d, but a+b@c.d", &[("a+b@c.d", "mailto:a+b@c.d")]),
    ("a.b-c_d@e.f.", &[("a.b-c_d@e.f", "mailto:a.b-c_d@e.f")]),
    ("a.b-c_d@e.f-", &[]),
    ("a.b-c_d@e.f_", &[]),
    ("mailto:a@b.c", &[("mailto:a@b.c", "mailto:a@b.c")]),
    ("xmpp:a@b.c", &[("xmpp:a@b.c", "xmpp:a@b.c")]),
    // in emphasis, in headings and in items, but in no link, no autolink and no code
    ("*www.a.b*", &[("www.a.b", "http://www.a.b")]),
    ("# a@b.c", &[("a@b.c", "mailto:a@b.c")]),
    ("> - a@b.c", &[("a@b.c", "mailto:a@b.c")]),
    ("[www.a.b](c)", &[]),
    ("<http://a.b>", &[]),
    ("`www.a.b`", &[]),
];

#[test]
fn literals_lead_where_they_say() {
    for (document, want) in LITERALS {
        let want: Vec<_> = want
            .iter()
            .map(|(text, to)| (text.to_string(), to.to_string()))
            .collect();
        assert_eq!(found(document), want, "{}", document);
    }
}

/// A literal stands in place of the data that it covers, and what is beside it is data.
#[test]
fn literals_stand_among_data() {
    let lines: Vec<_> = tokenize("a www.b.c d", &literals())
        .expect("it is read")
        .iter()
        .map(Event::to_string)
        .collect();
    assert_eq!(
        lines,
        [
            "enter Paragraph 1:1 (0+0)",
            "enter Data 1:1 (0+0)",
            "exit Data 1:3 (2+0)",
            "enter GfmAutolinkLiteralWww 1:3 (2+0)",
            "exit GfmAutolinkLiteralWww 1:10 (9+0)",
            "enter Data 1:10 (9+0)",
            "exit Data 1:12 (11+0)",
            "exit Paragraph 1:12 (11+0)",
        ]
    );
}

/// The checks of a document, by its items in their order.
fn items(document: &str) -> Vec<Option<bool>> {
    let tree = Tree::read(document, &checks()).expect("it is read");
    let is_check = |name| name == Name::GfmTaskListItemCheck;
    let all = tree.nodes().filter(|node| node.name() == Name::ListItem);
    let said: Vec<_> = all.map(|item| item.is_checked()).collect();
    let count = tree.nodes().filter(|node| is_check(node.name())).count();
    assert_eq!(said.iter().flatten().count(), count, "{}", document);
    said
}

#[test]
fn items_have_checks() {
    let cases: &[(&str, &[Option<bool>])] = &[
        ("- [ ] a\n- [x] b", &[Some(false), Some(true)]),
        ("- [X] a\n- b\n- [\t] c", &[Some(true), None, Some(false)]),
        (
            "- [x] a\n  - [ ] b\n  - [x] c\n- [ ] d",
            &[Some(true), Some(false), Some(true), Some(false)],
        ),
        ("1. [x] a", &[Some(true)]),
        ("-\n  [x] a", &[Some(true)]),
        ("- [x] a [ ]", &[Some(true)]),
        // another letter, no white space, nothing behind it
        ("- [y] a", &[None]),
        ("- [x]a", &[None]),
        ("- [x] ", &[None]),
        // no item, no paragraph, not its first block
        ("[x] a", &[]),
        ("- # [x] a", &[None]),
        ("- a\n\n  [x] b", &[None]),
        ("- > [x] a", &[None]),
        // a link in its place, and one that is longer
        ("- [x] a\n\n[x]: b", &[Some(true)]),
        ("- [x](b) a", &[None]),
    ];
    for (document, want) in cases {
        assert_eq!(items(document), *want, "{}", document);
    }
    let tree = Tree::read("- [x] a", &checks()).expect("it is read");
    let parts = tree
        .nodes()
        .skip_while(|node| node.name() != Name::Paragraph);
    let shown: Vec<_> = parts.map(|node| node.to_string()).collect();
    assert_eq!(
        shown,
        [
            "Paragraph 1:3-1:8",
            "GfmTaskListItemCheck 1:3-1:6",
            "GfmTaskListItemMarker 1:3-1:4",
            "GfmTaskListItemValueChecked 1:4-1:5",
            "GfmTaskListItemMarker 1:5-1:6",
            "Data 1:6-1:8",
        ]
    );
    assert_eq!(
        tree.children().next().map(|list| list.is_checked()),
        Some(None)
    );
    assert_eq!(tree.nodes().last().expect("data").is_checked(), None);
}

/// Both are off unless they are asked for, and each is on by itself.
#[test]
fn both_are_on_if_they_are_asked_for() {
    let document = "- [x] a@b.c";
    let names = |options: Options| {
        let events = tokenize(document, &options).expect("it is read");
        let has = |name| events.iter().any(|event| event.name() == name);
        (
            has(Name::GfmTaskListItemCheck),
            has(Name::GfmAutolinkLiteralEmail),
        )
    };
    let both = literals().gfm_task_list_item(true);
    assert_eq!(names(Options::default()), (false, false));
    assert_eq!(
        (names(checks()), names(literals())),
        ((true, false), (false, true))
    );
    assert_eq!(names(both), (true, true));
    assert_eq!(names(both.gfm_task_list_item(false)), (false, true));
    assert_eq!(names(both.gfm_autolink_literal(false)), (true, false));
}

/// The cells of the tables of a document, by rows; the header row comes first.
fn cells(document: &str) -> Vec<Vec<Vec<String>>> {
    let tree = Tree::read(document, &Options::default().gfm_table(true)).expect("it is read");
    let tables = tree.nodes().filter(|node| node.name() == Name::GfmTable);
    let text = |bytes: &[u8]| String::from_utf8(bytes.to_vec()).expect("it is UTF-8");
    tables
        .map(|table| {
            let rows = table.descendants();
            rows.filter(|node| node.name() == Name::GfmTableRow)
                .map(|row| {
                    let cells = row.children().filter(|it| it.name() == Name::GfmTableCell);
                    cells
                        .map(|cell| {
                            cell.child(Name::GfmTableCellText)
                                .map_or(String::new(), |it| text(it.text()))
                        })
                        .collect()
                })
                .collect()
        })
        .collect()
}

/// A document, and the cells of its tables.
type Tables = (&'static str, &'static [&'static [&'static [&'static str]]]);

const TABLES: &[Tables] = &[
    // "a single header row, a delimiter row separating the header from the data, and zero or more data rows"
    (
        "| a | b |\n| - | - |\n| c | d |",
        &[&[&["a", "b"], &["c", "d"]]],
    ),
    ("a | b\n-|-", &[&[&["a", "b"]]]),
    ("a\n:-", &[&[&["a"]]]),
    // the number of cells of the header row is that of the delimiter row; other rows may have any
    ("| a | b |\n| - |\n", &[]),
    (
        "|a|b|\n|-|-|\n|c|\n|d|e|f|",
        &[&[&["a", "b"], &["c"], &["d", "e", "f"]]],
    ),
    // "Include a pipe in a cell's content by escaping it, including inside other inline spans"
    (
        "| a \\| b |\n| - |\n| `c \\| d` |",
        &[&[&["a \\| b"], &["`c \\| d`"]]],
    ),
    // "The table is broken at the first empty line, or beginning of another block-level structure"
    ("|a|\n|-|\n|b|\n\n|c|", &[&[&["a"], &["b"]]]),
    ("|a|\n|-|\n> b", &[&[&["a"]]]),
    ("|a|\n|-|\n---\n", &[&[&["a"]]]),
    ("|a|\n|-|\n===\n", &[&[&["a"], &["==="]]]),
    ("|a|\n|-|\n    b", &[&[&["a"]]]),
    // a table may come directly behind the lines of a paragraph, and two tables may follow one another
    ("x\n|a|\n|-|\n", &[&[&["a"]]]),
    ("|a|\n|-|\n# b\n|c|\n|-|\n", &[&[&["a"]], &[&["c"]]]),
    // definitions alone are no header row
    ("[a]:\n/b\n:-", &[]),
    // it may be in a container, and ends with it
    ("> |a|\n> |-|\n|b|", &[&[&["a"]]]),
    ("- |a|\n  |-|\n  |b|", &[&[&["a"], &["b"]]]),
    // behind a container there is one
    ("- b\n\n|a|\n|-|", &[&[&["a"]]]),
];

#[test]
fn tables_have_rows_and_cells() {
    for (document, wanted) in TABLES {
        assert_eq!(cells(document), *wanted, "{document:?}");
    }
}

#[test]
fn texts_of_cells_are_read_as_texts() {
    let options = Options::default().gfm_table(true);
    let tree = Tree::read("a|b\n-|-\n*c*|[d]\n\n[d]: /e", &options).expect("it is read");
    let table = tree.children().next().expect("there is a table");
    assert_eq!(table.alignments(), Ok(Some(vec![Alignment::None; 2])));
    let names: Vec<_> = table.descendants().map(|node| node.name()).collect();
    assert!(names.contains(&Name::Emphasis));
    let link = tree.nodes().find(|node| node.name() == Name::Link);
    let target = link.expect("there is a link").link();
    let target = target
        .expect("there is memory")
        .expect("it leads somewhere");
    assert_eq!(target.destination, b"/e");
}

/// Only whole documents have them, with their texts: elsewhere they make no difference.
#[test]
fn only_documents_have_them() {
    let document = "- [x] a@b.c\n\n|a|\n|-|\n";
    let both = |options: Options| {
        let tasks = options.gfm_autolink_literal(true).gfm_task_list_item(true);
        tasks.gfm_table(true)
    };
    let others = Machine::ALL.iter().filter(|&&it| it != Machine::Document);
    let mut without: Vec<_> = others.map(|&it| Options::default().machine(it)).collect();
    without.push(Options::default().deep(false));
    for options in without {
        let (on, off) = (
            tokenize(document, &both(options)),
            tokenize(document, &options),
        );
        assert_eq!(on, off, "{:?}", options);
    }
}

/// A document that is edited has them as one that is read anew.
#[test]
fn edited_documents_have_them() {
    let options = Options::default()
        .gfm_autolink_literal(true)
        .gfm_task_list_item(true)
        .gfm_table(true)
        .gfm_footnote_definition(true)
        .gfm_label_start_footnote(true);
    let mut document =
        Document::new("- [x] a@b.c\n\n|a|\n|-|\n\nd[^e]\n", &options).expect("it is read");
    let end = document.bytes().len();
    let change = document.replace(end..end, "\n[^e]: f www.g.h\n");
    change.expect("it is edited");
    let anew = tokenize(document.bytes(), &options).expect("it is read");
    assert!(anew
        .iter()
        .any(|event| event.name() == Name::GfmFootnoteCall));
    assert_eq!(document.events().expect("there is memory"), anew);
}

/// A call of a footnote is no reference that nothing defines, nor is a check.
#[test]
fn calls_and_checks_are_defined() {
    let (bytes, options) = ("- [x] [a] [^b]\n\n[^b]: [c]\n", Options::default());
    let on = options
        .gfm_task_list_item(true)
        .gfm_footnote_definition(true);
    let told = |options: Options| -> Vec<String> {
        let document = Document::new(bytes, &options).expect("it is read");
        let found = document.undefined(0..document.sections());
        let text = |it: &limecove::Undefined| bytes[it.label.clone()].to_string();
        found.expect("there is memory").iter().map(text).collect()
    };
    assert_eq!(told(on.gfm_label_start_footnote(true)), ["a", "c"]);
    assert_eq!(told(on), ["a", "^b", "c"]);
}

/// HTML has what the options of reading have on, and what is turned on before or after these.
#[test]
fn html_has_them_too() {
    let (literal, plain) = (
        "<p><a href=\"mailto:a@b.c\">a@b.c</a></p>\n",
        "<p>a@b.c</p>\n",
    );
    let none = HtmlOptions::default();
    for (options, want) in [
        (none.parse(Options::default()), plain),
        (none.parse(literals()), literal),
        (none.parse(literals()).gfm_autolink_literal(false), plain),
        (
            none.gfm_autolink_literal(true).parse(Options::default()),
            literal,
        ),
        (none.parse(literals().text(TextOptions::default())), literal),
    ] {
        let html = limecove::to_html_with_options("a@b.c", &options);
        assert_eq!(html.as_deref(), Ok(want), "{:?}", options);
    }
}

/// Footnotes of a document: the bytes of their definitions, and those of their calls.
fn notes(document: &str) -> (Vec<String>, Vec<String>) {
    let options = Options::default()
        .gfm_footnote_definition(true)
        .gfm_label_start_footnote(true);
    let tree = Tree::read(document, &options).expect("it is read");
    let all = |name: Name| {
        let found = tree.nodes().filter(|node| node.name() == name);
        found
            .map(|node| String::from_utf8(node.text().to_vec()).expect("it is UTF-8"))
            .collect()
    };
    (all(Name::GfmFootnoteDefinition), all(Name::GfmFootnoteCall))
}

/// A document, its definitions of footnotes, and its calls.
type Notes = (
    &'static str,
    &'static [&'static str],
    &'static [&'static str],
);

const NOTES: &[Notes] = &[
    ("a[^b]\n\n[^b]: c", &["[^b]: c"], &["[^b]"]),
    // the label of a call is compared as that of a link
    ("[^B][^c]\n\n[^b]: d", &["[^b]: d"], &["[^B]"]),
    // a definition interrupts a paragraph, and holds blocks that are indented by four columns, or lazy lines
    ("a\n[^b]: c\nd\n\n    e\n\nf", &["[^b]: c\nd\n\n    e"], &[]),
    // a label has no white space, is not empty, and has no bracket that closes
    ("[^b c]: d", &[], &[]),
    ("[^]: d", &[], &[]),
    // in a quote and in an item
    ("> [^a]: b\n\n- [^a]", &["[^a]: b"], &["[^a]"]),
    // no call in code, in a link or behind an escape
    ("`[^a]` [b [^a]](c) \\[^a]\n\n[^a]: d", &["[^a]: d"], &[]),
];

#[test]
fn footnotes_are_called() {
    for (document, definitions, calls) in NOTES {
        let found = notes(document);
        assert_eq!(found.0, *definitions, "{}", document);
        assert_eq!(found.1, *calls, "{}", document);
    }
    let off = Tree::read("a[^b]\n\n[^b]: c", &Options::default()).expect("it is read");
    assert!(off
        .nodes()
        .all(|node| node.name() != Name::GfmFootnoteDefinition));
}

/// Two tildes strike through, and so does one, unless it is left out; in events, in HTML and in documents that are edited.
#[test]
fn one_tilde_strikes_through_unless_it_is_left_out() {
    let options = Options::default().text(TextOptions::default().gfm_strikethrough(true));
    let two = options.gfm_strikethrough_single_tilde(false);
    let document = "~a~ ~~b~~";
    for (options, count, want) in [
        (options, 2, "<p><del>a</del> <del>b</del></p>\n"),
        (two, 1, "<p>~a~ <del>b</del></p>\n"),
        (
            two.gfm_strikethrough_single_tilde(true),
            2,
            "<p><del>a</del> <del>b</del></p>\n",
        ),
    ] {
        let tree = Tree::read(document, &options).expect("it is read");
        let struck = tree
            .nodes()
            .filter(|node| node.name() == Name::GfmStrikethrough);
        assert_eq!(struck.count(), count);
        let kept = Document::new(document, &options).expect("it is read");
        assert_eq!(kept.events(), tokenize(document, &options));
        let html = limecove::to_html_with_options(document, &HtmlOptions::default().parse(options));
        assert_eq!(html.as_deref(), Ok(want));
    }
}
