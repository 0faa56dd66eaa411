//! The small linter of the examples, which is to stay small.

#[path = "../examples/small_lint.rs"]
#[allow(dead_code)]
mod small_lint;

use small_lint::findings;

#[test]
fn it_has_forty_lines() {
    assert!(include_str!("../examples/small_lint.rs").lines().count() <= 40);
}

#[test]
fn each_rule_is_found_in_quotes_and_lists_too() {
    for (document, want) in [
        ("# a\n\n### b\n", "3:1: a heading that skips a level"),
        ("> # a\n>\n> - ### b\n", "3:5: a heading that skips a level"),
        ("a\n===\nb\n---\n", ""),
        ("- ```\n  a\n", "1:3: fenced code without a language"),
        ("> ~~~ a\n> b\n", ""),
        ("> \u{e9} \n> b", "1:4: blanks at the end of a line"),
        ("1. a\t\r\n", "1:5: blanks at the end of a line"),
        ("- a\tb", "1:3: a tab"),
        ("a http://b.c\n", "1:1: an address without < and >"),
        ("[http://a.b](c) <http://d.e>\n\n[f]: http://g.h\n", ""),
    ] {
        assert_eq!(
            findings(document).unwrap().join("\n"),
            want,
            "{:?}",
            document
        );
    }
}

#[test]
fn code_is_passed_over() {
    for document in [
        "``` a\nb \n\thttp://c\n```\n",
        "    a \n    \tb\n\n\t# c\n",
        "`a\tb http://c`",
        "> ~~~ a\n> b \n> \t# c\n",
        "- a\n\n      \tb \n",
    ] {
        assert_eq!(findings(document).unwrap(), [""; 0], "{:?}", document);
    }
}
