//! What trees say of documents that the library reads.

use limecove::{
    spans_by_start, tokenize, with_ranges, Kind, LineIndex, ListMarker, Name, Options, TabSize,
    TextOptions, Tree,
};

/// The text of each span of these names, decoded.
fn decoded(document: &str, names: &[Name]) -> Vec<String> {
    let tree = Tree::read(document, &Options::default()).unwrap();
    let found = tree.nodes().filter(|node| names.contains(&node.name()));
    found
        .map(|node| String::from_utf8(node.decoded().unwrap()).unwrap())
        .collect()
}

#[test]
fn headings_have_levels() {
    let document = "# a\n###### b ##\na\nb\n===\nc\n -\n\n#no\n\n#\td\n##\n";
    let tree = Tree::read(document, &Options::default()).unwrap();
    let found: Vec<_> = tree
        .children()
        .filter_map(|node| Some((node.heading_level()?, node.decoded().unwrap())))
        .collect();
    let want: Vec<_> = [(1, "a"), (6, "b"), (1, "a\nb"), (2, "c"), (1, "d"), (2, "")]
        .iter()
        .map(|(level, text)| (*level, text.as_bytes().to_vec()))
        .collect();
    assert_eq!(found, want);
}

#[test]
fn fences_have_info_strings() {
    for (document, info) in [
        ("```\na\n```", None),
        ("``` \t\na", None),
        ("```rs", Some("rs")),
        ("~~~  r\\*s &lt;\t b` \t\n~~~", Some("r*s <\t b`")),
        ("~~~ a&#32;b  c\\", Some("a b  c\\")),
        ("~~~ é", Some("é")),
        ("    ```rs", None),
        ("a `b`", None),
    ] {
        let tree = Tree::read(document, &Options::default()).unwrap();
        let found = tree.children().next().unwrap().fence_info().unwrap();
        assert_eq!(found.as_deref(), info.map(str::as_bytes), "{}", document);
    }
}

/// As CommonMark's examples have it.
#[test]
fn text_is_decoded() {
    for (document, text) in [
        (
            "\\*a\\* &amp; &#x41;&#0; &nGt;",
            "*a* & A\u{fffd} \u{226b}\u{20d2}",
        ),
        ("a  \nb\\\n c", "a\nb\nc"),
        (
            "***a* b** <http://c.d?&amp;> <e@f.g>",
            "a b http://c.d?&amp; e@f.g",
        ),
        ("a <b\nc> d &no; e\\", "a  d &no; e\\"),
        ("`` a` `` `\n b\\* ` ` ` `&amp;`", "a` b\\*   &amp;"),
        ("a\0`\0`", "a\u{fffd}\u{fffd}"),
        ("* * *", ""),
    ] {
        let names = [Name::Paragraph, Name::ThematicBreak];
        assert_eq!(decoded(document, &names), [text], "{}", document);
    }
    assert_eq!(decoded("<b>\n\n", &[Name::HtmlFlow]), [""]);
}

/// The content of code blocks is what `cmark` prints of them.
#[test]
fn code_is_its_lines() {
    for (document, text) in [
        ("```\n", ""),
        ("```\n\n", "\n"),
        ("```\n```", ""),
        ("```a\nb\n\n c", "b\n\n c\n"),
        ("  ~~~\n\ta\n   b\r\n~~~", "  a\n b\n"),
        ("\ta\n  \t b\n\n     c\n\n", "a\n b\n\n c\n"),
        ("    \\* &amp;\0", "\\* &amp;\u{fffd}\n"),
        ("  ~~~\n  a\n  ", "a\n\n"),
        ("  ~~~\n  ", "\n"),
        ("~~~\na\n ", "a\n \n"),
        ("  ~~~\n  a\n  ~~~\n", "a\n"),
        ("\ta\n\t", "a\n"),
    ] {
        let names = [Name::CodeFenced, Name::CodeIndented];
        assert_eq!(decoded(document, &names), [text], "{:?}", document);
    }
    let two = TextOptions::default().tab_size(TabSize::new(2).unwrap());
    let tree = Tree::read(" ```\n\ta", &Options::default().text(two)).unwrap();
    let code = tree.children().next().unwrap().decoded().unwrap();
    assert_eq!(code, b" a\n");
}

/// What is in quotes and items is decoded as outside of them.
#[test]
fn prefixes_are_no_text() {
    let options = Options::default();
    for (document, name, text) in [
        ("> a\n> b\nc", Name::Paragraph, "a\nb\nc"),
        ("- > a `b\n  >   c`", Name::Paragraph, "a b c"),
        ("> ~~~ x\n> a\n>\n> b\n> ~~~", Name::CodeFenced, "a\n\nb\n"),
        ("1.  ```\n    a\n\tb\n", Name::CodeFenced, "a\nb\n"),
        ("- ~~~\n  a\n  ~~~", Name::CodeFenced, "a\n"),
        ("> ~~~\n> a\n>\n> ~~~", Name::CodeFenced, "a\n\n"),
        (">\t    a\n>\n>\t  b", Name::CodeIndented, "  a\n\nb\n"),
        ("- a\n  ===", Name::HeadingSetext, "a"),
    ] {
        let tree = Tree::read(document, &options).unwrap();
        let found = tree.nodes().find(|node| node.name() == name).unwrap();
        let decoded = String::from_utf8(found.decoded().unwrap()).unwrap();
        assert_eq!(decoded, text, "{:?}", document);
    }
}

/// What a list is, by CommonMark's words: marker, start, tightness.
#[test]
fn lists_are_known() {
    use ListMarker::{Dash, Parenthesis, Period, Plus, Star};
    let options = Options::default();
    for (document, want) in [
        ("- a\n- b", vec![(Dash, None, true)]),
        ("+ a\n\n+ b", vec![(Plus, None, false)]),
        ("* a\n\n  b", vec![(Star, None, false)]),
        ("- a\n\n\nb", vec![(Dash, None, true)]),
        ("-\n\n- a", vec![(Dash, None, false)]),
        ("-\n- a", vec![(Dash, None, true)]),
        ("0. a", vec![(Period, Some(0), true)]),
        ("123456789) a", vec![(Parenthesis, Some(123_456_789), true)]),
        ("- ~~~\n\n  ~~~\n- b", vec![(Dash, None, true)]),
        ("- a\n  > b\n  >\n- c", vec![(Dash, None, true)]),
        (
            "- a\n- b\n+ c",
            vec![(Dash, None, true), (Plus, None, true)],
        ),
        (
            "- a\n\n  - b\n",
            vec![(Dash, None, false), (Dash, None, true)],
        ),
        (
            "- a\n  1. b\n\n  2. c\n",
            vec![(Dash, None, true), (Period, Some(1), false)],
        ),
        ("> - a\n>\n> - b", vec![(Dash, None, false)]),
        ("a", vec![]),
    ] {
        let tree = Tree::read(document, &options).unwrap();
        let lists = tree.nodes().filter_map(|node| node.list());
        let found: Vec<_> = lists.map(|it| (it.marker, it.start, it.is_tight)).collect();
        assert_eq!(found, want, "{:?}", document);
        for list in tree.nodes().filter_map(|node| node.list()) {
            assert_eq!(list.is_ordered(), matches!(list.marker.byte(), b'.' | b')'));
        }
    }
}

/// Destination, title and label of the links and images of a document.
fn targets(document: &str, options: &Options) -> Vec<[String; 3]> {
    let tree = Tree::read(document, options).unwrap();
    let links = tree.nodes().filter(|it| it.name() != Name::Definition);
    let found = links.filter_map(|node| node.link().unwrap());
    let text = |bytes: Vec<u8>| String::from_utf8(bytes).unwrap();
    found
        .map(|it| {
            let title = it.title.map_or("-".to_string(), text);
            let label = it.label.map(|label| label.decoded().unwrap());
            [
                text(it.destination),
                title,
                label.map_or("-".to_string(), text),
            ]
        })
        .collect()
}

/// As CommonMark's rules for links have it.
#[test]
fn links_have_targets() {
    let options = Options::default();
    for (document, want) in [
        ("[a](b)", [["b", "-", "a"]].to_vec()),
        ("![*a* `b`](<c d> 'e')", vec![["c d", "e", "a b"]]),
        ("[]()", vec![["", "-", "-"]]),
        ("[a](<> \"\")", vec![["", "", "a"]]),
        (
            "[a](b\\)\\c&amp;&#x41;&#65;&no;&#x1234567; (t\\\"&copy;))",
            vec![["b)\\c&AA&no;&#x1234567;", "t\"\u{a9}", "a"]],
        ),
        ("[a](b&amp\\;&)", vec![["b&amp;&", "-", "a"]]),
        ("> [a](b\n> 'c\n>   d')", vec![["b", "c\nd", "a"]]),
        ("[![a](b)](c)", vec![["c", "-", "a"], ["b", "-", "a"]]),
        (
            "<http://a.b?c&amp;\\*> <d@e.f>",
            vec![
                ["http://a.b?c&amp;\\*", "-", "http://a.b?c&amp;\\*"],
                ["mailto:d@e.f", "-", "d@e.f"],
            ],
        ),
        ("`[a](b)` \\[c](d)", vec![]),
    ] {
        assert_eq!(targets(document, &options), want, "{:?}", document);
    }
    let text = TextOptions::default();
    let plain = options.text(text.character_escape(false).character_reference(false));
    assert_eq!(targets("[a](\\*&lt;)", &plain), [["\\*&lt;", "-", "a"]]);
    assert_eq!(
        decoded("a [b *c*](d 'e') ![f](g)", &[Name::Paragraph]),
        ["a b c f"]
    );
}

/// As CommonMark's rules for references have it: they go where the first definition of their label says, wherever it stands.
#[test]
fn references_have_targets() {
    for (document, want) in [
        ("[a][b]\n\n[B]: c 'd'", [["c", "d", "a"]].to_vec()),
        (
            "[a]: b\n[A]: c\n\n[a][] [d][A]",
            vec![["b", "-", "a"], ["b", "-", "d"]],
        ),
        (
            "![*a* `e`][]\n\n[*a*  `E`]: <c\\*&amp;> \"&lt;\"",
            vec![["c*&", "<", "a e"]],
        ),
        (
            "> [a\n> b]\n\n- [ A\tB ]: c\n  'd\n    e'",
            vec![["c", "d\ne", "a\nb"]],
        ),
        ("[a\\]][\u{3a3}]\n\n[\u{3c2}]: <>", vec![["", "-", "a]"]]),
        ("[a](b)\n\n[a]: c", vec![["b", "-", "a"]]),
        ("[a][b]\n\n[a]: c", vec![]),
        (
            "[![a]][b]\n\n[a]: c\n[b]: d",
            vec![["d", "-", "a"], ["c", "-", "a"]],
        ),
    ] {
        let found = targets(document, &Options::default());
        assert_eq!(found, want, "{:?}", document);
    }
    let tree = Tree::read("[a]\n\n> [A]: b\n\n[a]: c", &Options::default()).unwrap();
    let link = tree.nodes().find(|node| node.name() == Name::Link);
    let definition = link.unwrap().link().unwrap().unwrap().definition.unwrap();
    assert_eq!(
        (definition.text(), definition.bytes()),
        (&b"[A]: b"[..], 7..13)
    );
}

/// Where a definition goes: its own destination and title, also if its label is defined before.
#[test]
fn definitions_have_targets() {
    for (document, destination, title) in [
        ("[a]: b", "b", None),
        ("[a]: <>", "", None),
        (
            "> [a]:\n> <b\\*&amp;> 'c\n> &copy;d'\n",
            "b*&",
            Some("c\n\u{a9}d"),
        ),
        ("[a]: javascript:b \"\"", "javascript:b", Some("")),
    ] {
        let tree = Tree::read(document, &Options::default()).unwrap();
        let node = tree
            .nodes()
            .find(|it| it.name() == Name::Definition)
            .unwrap();
        let target = node.link().unwrap().unwrap();
        assert_eq!(target.destination, destination.as_bytes(), "{}", document);
        assert_eq!(target.title.as_deref(), title.map(str::as_bytes));
        assert_eq!((target.label, target.definition), (None, Some(node)));
        assert_eq!(target.defined_at, Some(node.bytes()));
    }
    let tree = Tree::read("[a]: b\n[A]: c\n", &Options::default()).unwrap();
    let found = tree.nodes().filter_map(|it| it.link().unwrap());
    assert!(found.map(|it| it.destination).eq([b"b", b"c"]));
}

/// What is between the brackets of labels, as it is written and as it is compared.
#[test]
fn labels_are_found() {
    let document = "[a](b) [c] ![ D ][] [*e*][ f\tG ] [h]\n\n> [i\n> J]\n\n\
        [c]: x\n[d]: x\n[F  g]: x\n[I j]: x\n";
    let tree = Tree::read(document, &Options::default()).unwrap();
    let found: Vec<_> = tree
        .nodes()
        .filter_map(|it| Some((it.label()?.text(), it.normalized_label().unwrap()?)))
        .collect();
    let want: Vec<(&[u8], Vec<u8>)> = [
        ("c", "C"),
        (" D ", "D"),
        (" f\tG ", "F G"),
        ("i\n> J", "I J"),
        ("c", "C"),
        ("d", "D"),
        ("F  g", "F G"),
        ("I j", "I J"),
    ]
    .map(|(written, compared)| (written.as_bytes(), compared.into()))
    .into();
    assert_eq!(found, want);
}

/// The line of the last byte of a span that is no line ending.
#[test]
fn spans_have_last_lines() {
    for (document, name, last) in [
        ("> a\n> b\n\nc", Name::BlockQuote, 2),
        ("> a\r\n>\r\n\r\nb", Name::BlockQuote, 2),
        ("- a\n\n  b\n\n\nc", Name::ListUnordered, 3),
        ("- a\n\n  b\n\n\nc", Name::ListItem, 3),
        ("~~~\na\n~~~\nb", Name::CodeFenced, 3),
        ("~~~\na\n\n", Name::CodeFenced, 2),
        ("~~~\ra\r", Name::CodeFenced, 2),
        ("    a\n\n    b\n\nc", Name::CodeIndented, 3),
        ("a\nb\n\n", Name::Paragraph, 2),
        ("a\n===\nb", Name::HeadingSetext, 2),
        ("<!--\n\n-->\n\na", Name::HtmlFlow, 3),
        ("a\nb", Name::LineEnding, 1),
        ("a\n\nb", Name::BlankLineEnding, 2),
    ] {
        let tree = Tree::read(document, &Options::default()).unwrap();
        let node = tree.nodes().find(|it| it.name() == name).unwrap();
        assert_eq!(node.last_line(), last, "{:?}", document);
    }
}

const DOCUMENT: &str = "# a *b **c** d*\r\n\n~~~ x\r`e\n~~~\nf `g\nh` é\n<!--\n-->\n\n    i\n";

#[test]
fn ranges_are_those_of_spans() {
    let events = tokenize(DOCUMENT, &Options::default()).unwrap();
    let begun = spans_by_start(&events).unwrap();
    let enters = with_ranges(&events)
        .unwrap()
        .filter(|(event, _)| event.kind() == Kind::Enter);
    assert!(enters.eq(enters_of(&events).zip(begun.iter().map(|span| span.bytes()))));
    let mut ranges: Vec<_> = with_ranges(&events).unwrap().collect();
    assert_eq!(ranges.len(), events.len());
    ranges.sort_by_key(|(event, range)| (event.name() as u32, range.start, range.end));
    assert!(ranges.chunks(2).all(|two| two[0].1 == two[1].1));
}

fn enters_of(events: &[limecove::Event]) -> impl Iterator<Item = limecove::Event> + '_ {
    let enters = events.iter().filter(|event| event.kind() == Kind::Enter);
    enters.copied()
}

/// Lines, and without tabs columns, are those of points.
#[test]
fn lines_are_those_of_points() {
    let index = LineIndex::new(DOCUMENT).unwrap();
    for event in tokenize(DOCUMENT, &Options::default()).unwrap() {
        let (point, place) = (event.point(), index.line_column(event.point().index));
        assert_eq!((place.line, place.bytes), (point.line, point.column));
    }
}

/// A tree has the spans of its document.
#[test]
fn trees_have_all_spans() {
    let events = tokenize(DOCUMENT, &Options::default()).unwrap();
    let tree = Tree::read(DOCUMENT, &Options::default()).unwrap();
    let spans = spans_by_start(&events).unwrap();
    assert!(tree.nodes().map(|node| node.span()).eq(spans));
    let whole: Vec<u8> = tree
        .children()
        .flat_map(|node| node.text().to_vec())
        .collect();
    assert_eq!(whole, DOCUMENT.as_bytes());
}

/// Random bytes: nothing panics, what is decoded is UTF-8 if the document is, and lines are those of points.
#[test]
fn random_documents_have_trees() {
    const PIECES: [&[u8]; 36] = [
        b"a",
        b"\xc3\xa9",
        b"\xff",
        b"\0",
        b" ",
        b"\t",
        b"\n",
        b"\r",
        b"\r\n",
        b"`",
        b"```",
        b"~~~",
        b"#",
        b"=",
        b"---",
        b"*",
        b"**",
        b"\\",
        b"&amp;",
        b"&#9;",
        b"&#xFFFFFF;",
        b"<b>",
        b"<c:d>",
        b"    ",
        b"- ",
        b"1. ",
        b"> ",
        b"[",
        b"](",
        b"<",
        b")",
        b" \"",
        b"]",
        b"[a]",
        b"][A]",
        b"\n\n[a]: b\n",
    ];
    let mut state = 1_u32;
    let mut below = move |n: usize| {
        state = state.wrapping_mul(1_664_525).wrapping_add(1_013_904_223);
        (state >> 8) as usize % n
    };
    for _ in 0..400 {
        let pieces: Vec<&[u8]> = (0..below(30))
            .map(|_| PIECES[below(PIECES.len())])
            .collect();
        let document = pieces.concat();
        let options = Options::default();
        let tree = Tree::read(&document, &options).unwrap();
        let lines = LineIndex::new(&document).unwrap();
        for node in tree.nodes() {
            let is_list = matches!(node.name(), Name::ListOrdered | Name::ListUnordered);
            assert_eq!(node.list().is_some(), is_list);
            let is_link = matches!(
                node.name(),
                Name::Link | Name::Image | Name::Autolink | Name::Definition
            );
            assert_eq!(node.link().unwrap().is_some(), is_link);
            assert_eq!(
                node.label().is_some(),
                node.normalized_label().unwrap().is_some()
            );
            let last = node.last_line();
            assert!((node.span().start.line..=node.span().end.line).contains(&last));
            let text = node.decoded().unwrap();
            let info = node.fence_info().unwrap().unwrap_or_default();
            if std::str::from_utf8(&document).is_ok() {
                assert!(String::from_utf8(text).is_ok() && String::from_utf8(info).is_ok());
            }
            let is_heading = matches!(node.name(), Name::HeadingAtx | Name::HeadingSetext);
            assert_eq!(node.heading_level().is_some(), is_heading);
            for point in [node.span().start, node.span().end] {
                assert_eq!(lines.line_column(point.index).line, point.line);
            }
        }
        let whole: Vec<u8> = tree
            .children()
            .flat_map(|node| node.text().to_vec())
            .collect();
        assert_eq!(whole, document);
        for node in tree.nodes() {
            let held = match node.parent() {
                Some(parent) => parent.children(),
                None => tree.children(),
            };
            let behind = held.skip_while(|other| *other != node).skip(1);
            assert!(node.next_siblings().eq(behind));
        }
        for index in 0..=document.len() {
            let covers = tree.nodes().filter(|node| node.bytes().contains(&index));
            assert_eq!(tree.node_at(index), covers.last(), "{:?}", document);
        }
    }
}
