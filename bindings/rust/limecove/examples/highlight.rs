//! A highlighter: `highlight FILE` prints a document with colours for a terminal. Headings and strong emphasis are bold, emphasis is
//! italic, what a link shows is underlined, code is green, addresses are blue, titles and info strings are magenta, raw HTML, character
//! references and labels are yellow, and the marks of all are grey. Without colours it prints the document's bytes, each once and in order.
//!
//! It goes over the events once: it takes time in proportion to the document, and as many codes as spans begin and end.

use limecove::{tokenize, Error, Kind, Name, Options};
use std::io::Write;
use std::{env, fs, io};

/// How a span is shown. Of styles that are open all are shown; of colours the last one.
#[derive(Clone, Copy, PartialEq, Eq)]
enum Look {
    Style(usize),
    Colour(&'static str),
}

/// What a terminal is told before the bytes of a style, and after them.
const STYLES: [(&str, &str); 3] = [
    ("\x1b[1m", "\x1b[22m"),
    ("\x1b[3m", "\x1b[23m"),
    ("\x1b[4m", "\x1b[24m"),
];
const BOLD: Look = Look::Style(0);
const ITALIC: Look = Look::Style(1);
const UNDERLINED: Look = Look::Style(2);
const GREEN: Look = Look::Colour("\x1b[32m");
const YELLOW: Look = Look::Colour("\x1b[33m");
const BLUE: Look = Look::Colour("\x1b[34m");
const MAGENTA: Look = Look::Colour("\x1b[35m");
const GREY: Look = Look::Colour("\x1b[90m");
const NO_COLOUR: &str = "\x1b[39m";

/// How a span of this name is shown, if it is shown in a way of its own.
fn look(name: Name) -> Option<Look> {
    Some(match name {
        Name::HeadingAtx | Name::HeadingSetext | Name::Strong => BOLD,
        Name::Emphasis => ITALIC,
        Name::LabelText => UNDERLINED,
        Name::CodeTextData | Name::CodeFlowChunk => GREEN,
        Name::AutolinkProtocol
        | Name::AutolinkEmail
        | Name::DefinitionDestinationString
        | Name::ResourceDestinationString => BLUE,
        Name::CodeFencedFenceInfo
        | Name::CodeFencedFenceMeta
        | Name::DefinitionTitleString
        | Name::ResourceTitleString => MAGENTA,
        Name::HtmlFlowData
        | Name::HtmlTextData
        | Name::CharacterReferenceValue
        | Name::DefinitionLabelString
        | Name::ReferenceString => YELLOW,
        Name::AutolinkMarker
        | Name::BlockQuoteMarker
        | Name::CharacterEscapeMarker
        | Name::CharacterReferenceMarker
        | Name::CharacterReferenceMarkerHexadecimal
        | Name::CharacterReferenceMarkerNumeric
        | Name::CharacterReferenceMarkerSemi
        | Name::CodeFencedFenceSequence
        | Name::CodeTextSequence
        | Name::DefinitionDestinationLiteralMarker
        | Name::DefinitionLabelMarker
        | Name::DefinitionMarker
        | Name::DefinitionTitleMarker
        | Name::EmphasisSequence
        | Name::HardBreakEscape
        | Name::HardBreakTrailing
        | Name::HeadingAtxSequence
        | Name::HeadingSetextUnderlineSequence
        | Name::LabelImageMarker
        | Name::LabelMarker
        | Name::ListItemMarker
        | Name::ListItemValue
        | Name::ReferenceMarker
        | Name::ResourceDestinationLiteralMarker
        | Name::ResourceMarker
        | Name::ResourceTitleMarker
        | Name::StrongSequence
        | Name::ThematicBreakSequence => GREY,
        _ => return None,
    })
}

/// A document with colours.
fn highlighted(document: &[u8]) -> Result<Vec<u8>, Error> {
    let (mut shown, mut at) = (Vec::new(), 0);
    // how many spans of each style are open, as emphasis may be in emphasis; and the colours that are open
    let (mut open, mut colours) = ([0; STYLES.len()], Vec::new());
    for event in tokenize(document, &Options::default())? {
        let look = match look(event.name()) {
            Some(look) => look,
            None => continue,
        };
        let index = event.point().index;
        shown.extend_from_slice(&document[at..index]);
        at = index;
        let code = match (look, event.kind()) {
            (Look::Style(style), Kind::Enter) => {
                open[style] += 1;
                (open[style] == 1).then(|| STYLES[style].0)
            }
            (Look::Style(style), Kind::Exit) => {
                open[style] -= 1;
                (open[style] == 0).then(|| STYLES[style].1)
            }
            (Look::Colour(colour), Kind::Enter) => {
                colours.push(colour);
                Some(colour)
            }
            (Look::Colour(_), Kind::Exit) => {
                colours.pop();
                Some(colours.last().copied().unwrap_or(NO_COLOUR))
            }
        };
        shown.extend_from_slice(code.unwrap_or_default().as_bytes());
    }
    shown.extend_from_slice(&document[at..]);
    Ok(shown)
}

fn main() -> io::Result<()> {
    let file = env::args().nth(1).expect("usage: highlight FILE");
    let shown = highlighted(&fs::read(file)?).expect("it is read");
    io::stdout().write_all(&shown)
}

#[cfg(test)]
mod tests {
    use super::*;
    use std::collections::HashSet;

    /// Each code of a terminal, and how tests write it: `{` and a letter where a look begins, `}` where one ends.
    const MARKS: [(&str, &str); 12] = [
        (STYLES[0].0, "{B"),
        (STYLES[1].0, "{I"),
        (STYLES[2].0, "{U"),
        (STYLES[0].1, "}"),
        (STYLES[1].1, "}"),
        (STYLES[2].1, "}"),
        ("\x1b[32m", "{C"),
        ("\x1b[33m", "{H"),
        ("\x1b[34m", "{L"),
        ("\x1b[35m", "{T"),
        ("\x1b[90m", "{."),
        (NO_COLOUR, "}"),
    ];

    fn shown(document: &str) -> String {
        String::from_utf8(highlighted(document.as_bytes()).unwrap()).unwrap()
    }

    fn marked(document: &str) -> String {
        let marks = MARKS.iter();
        marks.fold(shown(document), |text, (code, mark)| {
            text.replace(code, mark)
        })
    }

    /// A document with each construct, and how it is shown.
    const CONSTRUCTS: [(&str, &str); 18] = [
        ("a `b` c\n", "a {.`}{Cb}{.`} c\n"),
        ("<de:f> <g@h.i>", "{.<}{Lde:f}{.>} {.<}{Lg@h.i}{.>}"),
        (
            "\\*f &lt; &#9; &#x9;",
            "{.\\}*f {.&}{Hlt}{.;} {.&}{.#}{H9}{.;} {.&}{.#}{.x}{H9}{.;}",
        ),
        ("g\r\n\n\th", "g\r\n\n\t{Ch}"),
        ("*a **b***", "{I{.*}a {B{.**}b{.**}}{.*}}"),
        ("*a *b* c*", "{I{.*}a {.*}b{.*} c{.*}}"),
        ("# a\nb\n-", "{B{.#} a}\n{Bb\n{.-}}"),
        ("# *a* #\n", "{B{.#} {I{.*}a{.*}} {.#}}\n"),
        (
            "~~~ a b\nc\n~~~\n***",
            "{.~~~} {Ta} {Tb}\n{Cc}\n{.~~~}\n{.***}",
        ),
        ("<b>\n\nc<d>", "{H<b>}\n\nc{H<d>}"),
        ("> - a\n\n1) `b`", "{.>} {.-} a\n\n{.1}{.)} {.`}{Cb}{.`}"),
        ("[a *b*](c)", "{.[}{Ua {I{.*}b{.*}}}{.]}{.(}{Lc}{.)}"),
        (
            "[a](<c d> \"e\")",
            "{.[}{Ua}{.]}{.(}{.<}{Lc d}{.>} {.\"}{Te}{.\"}{.)}",
        ),
        ("![a](b 'c')", "{.!}{.[}{Ua}{.]}{.(}{Lb} {.'}{Tc}{.'}{.)}"),
        (
            "[![a](b)](c)",
            "{.[}{U{.!}{.[}a{.]}{.(}{Lb}{.)}}{.]}{.(}{Lc}{.)}",
        ),
        ("a\\\nb  \nc", "a{.\\}\nb{.  }\nc"),
        ("[]()", "{.[}{.]}{.(}{.)}"),
        (
            "[g][C D] [c d]\n\n> [c d]: <e> 'f'",
            "{.[}{Ug}{.]}{.[}{HC D}{.]} {.[}{Uc d}{.]}\n\n{.>} {.[}{Hc d}{.]}{.:} {.<}{Le}{.>} {.'}{Tf}{.'}",
        ),
    ];

    #[test]
    fn constructs_are_coloured() {
        for (document, want) in CONSTRUCTS {
            assert_eq!(marked(document), want, "{:?}", document);
        }
    }

    /// Each name that the documents above have is shown, but for those that only hold others, white space and plain text.
    #[test]
    fn no_mark_is_plain() {
        let whole = CONSTRUCTS.map(|(document, _)| document).join("\n\n");
        let events = tokenize(&whole, &Options::default()).unwrap();
        let names: HashSet<_> = events.iter().map(|event| event.name()).collect();
        let void = names.iter().filter(|name| name.is_void());
        let plain: HashSet<_> = void.filter(|name| look(**name).is_none()).collect();
        use Name::{BlankLineEnding, CharacterEscapeValue, Data, LineEnding, SpaceOrTab};
        let known = [
            BlankLineEnding,
            CharacterEscapeValue,
            Data,
            LineEnding,
            SpaceOrTab,
        ];
        assert_eq!(plain, known.iter().collect());
    }

    #[test]
    fn no_byte_is_lost() {
        let document =
            "a `b\n> c` <de:f>\r\n\\* \t`f\n\n# *g\n~~~\n\th\n~~~\n**i** &amp;\\\n- [j](k)\n";
        let all = CONSTRUCTS.map(|(document, _)| document).join("\n\n");
        for document in [document, &all] {
            let plain = MARKS
                .iter()
                .fold(shown(document), |text, (code, _)| text.replace(code, ""));
            assert_eq!(plain, document);
        }
    }

    /// As many codes as spans begin and end, also where emphasis is in emphasis 20,000 times.
    #[test]
    fn depth_makes_no_more_codes() {
        let document = "*a ".repeat(20_000) + "b" + &" a*".repeat(20_000);
        let shown = shown(&document);
        assert!(shown.len() < 20 * document.len());
        assert_eq!(shown.matches(STYLES[1].0).count(), 1);
    }
}
