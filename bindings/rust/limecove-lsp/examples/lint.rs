//! A linter: `lint FILE..` prints what the thirteen [`rules`](limecove_lsp::rules) of the server find, each by the name that markdownlint has for it.
//! The status is 1 if there is anything, and 2 without a file.

use limecove::{Error, LineIndex};
use limecove_lsp::text::Text;
use std::{env, fs, process};

/// What is wrong in a document, in the order of its bytes: line, column in characters, and what.
fn findings(document: &str) -> Result<Vec<String>, Error> {
    let (text, lines) = (Text::new(document)?, LineIndex::new(document)?);
    let found = text.findings();
    Ok(found
        .iter()
        .map(|(at, (name, what))| format!("{}: {} {}", lines.line_column(at.start), name, what))
        .collect())
}

fn main() {
    let files: Vec<String> = env::args().skip(1).collect();
    if files.is_empty() {
        eprintln!("usage: lint FILE..");
        process::exit(2);
    }
    let mut is_well = true;
    for file in files {
        let document = fs::read_to_string(&file).expect("a file of UTF-8");
        for finding in findings(&document).expect("it is read") {
            println!("{file}:{finding}");
            is_well = false;
        }
    }
    process::exit(i32::from(!is_well));
}

#[cfg(test)]
mod tests {
    use super::*;
    use std::time::{Duration, Instant};

    /// Places and names of what is found, without words.
    fn found(document: &str) -> String {
        let all = findings(document).unwrap();
        let short = all
            .iter()
            .map(|it| it.splitn(3, ' ').take(2).collect::<Vec<_>>().join(" "));
        short.collect::<Vec<_>>().join(", ")
    }

    #[test]
    fn each_rule_finds_what_it_is_for() {
        let long = "é".repeat(121);
        for (document, want) in [
            (
                "# a\n\n### b\n\nc\n===\n\n### d\n",
                "3:1: MD001, 5:1: MD025, 8:1: MD001",
            ),
            ("## a\n\n### b\n\n# c\n", ""),
            ("# a\n\nb\n=\n\n# c\n", "3:1: MD025, 6:1: MD025"),
            (
                "# a\nb\n## c\n\nd\n---\n***\n",
                "1:4: MD022, 3:1: MD022, 6:4: MD022",
            ),
            ("# a\n## b\n", "1:4: MD022, 2:1: MD022"),
            ("[a]: b\n# c\n<!-- -->\n", "2:1: MD022, 2:4: MD022"),
            ("a\n~~~ b\n\n~~~\n    c\n", "2:1: MD031, 4:4: MD031"),
            ("~~~ a\n~~~\n# b\n", "2:4: MD031, 3:1: MD022"),
            ("    >\n# a\n", "2:1: MD022"),
            (
                "- a\n\n1. b\n\n+ c\n\n- d\n\n* e\n",
                "5:1: MD004, 9:1: MD004",
            ),
            ("- a\n  - b\n    * c\n", "3:5: MD004"),
            (
                "a \nb  \nc   \nd\t\ne  \n",
                "1:2: MD009, 3:2: MD009, 4:2: MD009, 4:2: MD010, 5:2: MD009",
            ),
            ("a\tb\n\n-\tc\n", "1:2: MD010, 3:2: MD010"),
            ("a\n\n\n\nb\n\nc\n\n\n", "3:1: MD012, 9:1: MD012"),
            (&format!("{}\n", long), "1:121: MD013"),
            ("a http://b.c *https://d*\n", "1:3: MD034, 1:15: MD034"),
            ("```\na\n```\n\n~~~ b\n~~~\n", "1:1: MD040"),
            (
                "[a]() [b](#) [c](<>) [d](#e) [](f)\n",
                "1:1: MD042, 1:7: MD042, 1:14: MD042",
            ),
            (
                "![](a) ![ ](b) ![*c*](d) [![](e)](f)\n",
                "1:1: MD045, 1:8: MD045, 1:27: MD045",
            ),
            ("![![](a)](b) ![![c](d)](e)\n", "1:1: MD045"),
        ] {
            assert_eq!(found(document), want, "{:?}", document);
        }
        let said = ["1:1: MD042 a link that goes nowhere"];
        assert_eq!(findings("[a]()").unwrap(), said);
    }

    #[test]
    fn quotes_and_lists_are_looked_into() {
        let long = "é".repeat(121);
        for (document, want) in [
            ("> # a\n>\n> - ### b\n", "3:5: MD001"),
            ("> - a\n\n1. + b\n", "3:4: MD004"),
            ("> a \n> \n- b \n", "1:4: MD009, 2:2: MD009, 3:4: MD009"),
            ("> - a\tb\n", "1:6: MD010"),
            ("> a\n>\n>\n> b\n\n- c\n\n\n  d\n", "3:2: MD012, 8:1: MD012"),
            ("> a\n>\n\nb\n", ""),
            ("> > a\n> >\n>\n>\n> b\n", "4:2: MD012"),
            (&format!("> - {}\n", long), "1:121: MD013"),
            (
                "> a\n> http://b.c\n\n- d http://e\n",
                "2:3: MD034, 4:5: MD034",
            ),
            (
                "> ```\n> a\n> ```\n\n- ~~~\n  b\n",
                "1:3: MD040, 5:3: MD040",
            ),
            ("> # a\n> b\n>\n> # c\n", "1:6: MD022, 4:3: MD025"),
            ("> # a\n>\n> b\n\n## c\n", ""),
            ("> a\n# b\n- c\n", "2:1: MD022, 2:4: MD022"),
            ("- # a\n- ## b\n\n  c\n", ""),
            ("1. a\n   ~~~ b\n   ~~~\n2. c\n\n   ~~~ d\n", "2:4: MD031"),
            ("- ~~~ a\n  b\n\n# c\n", ""),
            ("- ~~~ a\n  b\n# c\n", "3:1: MD022"),
            ("> [a\n> b]()\n\n- ![](c)\n", "1:3: MD042, 4:3: MD045"),
        ] {
            assert_eq!(found(document), want, "{:?}", document);
        }
    }

    #[test]
    fn code_and_html_are_not() {
        let long = "c".repeat(121);
        for document in [
            "~~~ sh\nwget http://a.b \n\n\n\tc\n### d\n- e\n* f\n[g]() ![](h)\n~~~\n",
            "> ~~~ x\n> c \n> \n>\n>\n> \thttp://d\n> ~~~\n",
            "- ~~~ x\n  a \n\n\n  \tb\n  ~~~\n",
            "    http://c.d \n\n\n    \te\n",
            "- a\n\n      [b]() \n      http://c\n",
            "`a \nb` `\t` `[c](d)` `http://e.f` <http://g.h>\n",
            "<a href=\"http://b.c\">d</a> <b\tc>\n\n<!-- \nhttp://e.f\t\n\n\n-->\n",
            "[http://a](b)\n",
            "[a]: http://b\n\n> [c]: https://d\n",
            &format!("`{}`\n\n    {}\n\n[a](http://{})\n", long, long, long),
        ] {
            assert_eq!(findings(document).unwrap(), [""; 0], "{:?}", document);
        }
        assert_eq!(found("\\`a \n"), "1:4: MD009");
        assert_eq!(found("``` x \na \n```\n"), "1:6: MD009");
    }

    /// No nesting takes time of its square.
    #[test]
    fn hostile_documents_take_no_longer() {
        let start = Instant::now();
        for (before, behind) in [
            ("![", "](a)"),
            ("[", "](a)"),
            ("*a **b ", " b** a*"),
            ("> ", ""),
        ] {
            let document = before.repeat(20_000) + "x" + &behind.repeat(20_000);
            assert!(findings(&document).unwrap().len() < 20);
        }
        for line in ["http://a *b* ", "[a](http://b) ", "- a\tb\n", "\n\n\n"] {
            findings(&line.repeat(10_000)).unwrap();
        }
        let blanks = "\n".repeat(100_000);
        findings(&format!("{}{}", blanks, "# a\n".repeat(20_000))).unwrap();
        findings(&format!("# a{}# b", blanks)).unwrap();
        assert!(start.elapsed() < Duration::from_secs(60));
    }

    /// Nothing is lost to lines that end otherwise, or to a document that ends early.
    #[test]
    fn endings_make_no_difference() {
        let document = "# a \n\n\n### b\tc\n\n- d\n* http://e";
        let want = found(document);
        assert!(want.contains("MD009") && want.contains("MD034"));
        for ending in ["\r\n", "\r"] {
            assert_eq!(found(&document.replace('\n', ending)), want);
        }
        assert_eq!(found(""), "");
    }
}
