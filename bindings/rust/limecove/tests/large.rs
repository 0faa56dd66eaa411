//! A document of many bytes at which a span may begin, and of few events: the room for all that may be there is not needed. And one of
//! spans in each other, a megabyte deep.

use limecove::{spans, tokenize, with_ranges, Machine, Name, Options, Tree};
use std::time::{Duration, Instant};

#[test]
fn fifty_million_backticks_are_four_events() {
    let events = tokenize(
        vec![b'`'; 50_000_000],
        &Options::default().machine(Machine::Text),
    )
    .unwrap();
    assert_eq!(events.len(), 4);
    assert_eq!(
        events[3].to_string(),
        "exit Paragraph 1:50000001 (50000000+0)"
    );
}

/// What goes through all spans takes no time of the square of their depth: that were hours.
#[test]
fn a_megabyte_of_nested_emphasis_has_spans() {
    const DEPTH: usize = 75_000;
    let document = "*a **b ".repeat(DEPTH) + "c" + &" b** a*".repeat(DEPTH);
    let events = tokenize(&document, &Options::default()).unwrap();
    let start = Instant::now();
    let of = |name| spans(&events).filter(move |span| span.name == name);
    assert_eq!(of(Name::Strong).count(), DEPTH);
    assert_eq!(of(Name::Emphasis).last().unwrap().depth, 1);
    let tree = Tree::new(&document, &events).unwrap();
    let deepest = tree.nodes().max_by_key(|node| node.span().depth).unwrap();
    assert_eq!(deepest.ancestors().count(), 4 * DEPTH + 1);
    let paragraph = tree.children().next().unwrap();
    let text = "a b ".repeat(DEPTH) + "c" + &" b a".repeat(DEPTH);
    assert_eq!(paragraph.decoded().unwrap(), text.as_bytes());
    let (_, whole) = with_ranges(&events).unwrap().next().unwrap();
    assert_eq!(whole, 0..document.len());
    assert!(start.elapsed() < Duration::from_secs(120));
}
