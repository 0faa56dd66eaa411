//! A linter in 40 lines: `small_lint FILE..` has five rules, in quotes and lists too. The last three are not for code, links and definitions.
use limecove::{Error, LineIndex, Name, Options, Tree};

pub fn findings(document: &str) -> Result<Vec<String>, Error> {
    let tree = Tree::read(document, &Options::default())?;
    let lines = LineIndex::new(document)?;
    let (mut found, mut level, mut passed) = (Vec::new(), 6, 0);
    for node in tree.nodes() {
        let (name, at, end) = (node.name(), node.bytes().start, node.bytes().end);
        let mut say = |what| found.push(format!("{}: {}", lines.line_column(at), what));
        if node.heading_level().map_or(false, |new| new > level + 1) {
            say("a heading that skips a level");
        }
        level = node.heading_level().unwrap_or(level);
        if name == Name::CodeFenced && node.fence_info()?.is_none() {
            say("fenced code without a language");
        }
        use Name::{CodeFenced as Fenced, CodeIndented, CodeText, Definition, Link};
        if matches!(name, Fenced | CodeIndented | CodeText | Definition | Link) {
            passed = end;
        }
        let behind = document.as_bytes().get(end).unwrap_or(&b'\n');
        match name {
            _ if at < passed || !name.is_void() => {}
            Name::SpaceOrTab if b"\r\n".contains(behind) => say("blanks at the end of a line"),
            Name::Data if document[at..end].contains("://") => say("an address without < and >"),
            _ if document[at..end].contains('\t') => say("a tab"),
            _ => {}
        }
    }
    Ok(found)
}

fn main() {
    for file in std::env::args().skip(1) {
        let document = std::fs::read_to_string(&file).expect("a file of UTF-8");
        let found = findings(&document).expect("it is read");
        found.iter().for_each(|it| println!("{}:{}", file, it));
    }
}
