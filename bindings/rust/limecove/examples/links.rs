//! Lists where the links and images of documents go: `links FILE..`. Of those by reference it says where that is defined, and which
//! definitions nothing refers to.

use limecove::{Error, LineIndex, Name, Options, Tree};
use std::collections::HashSet;
use std::{env, fs};

/// A line for each link and image, and for each definition that is not used, in the order of their places.
fn listed(document: &[u8]) -> Result<Vec<String>, Error> {
    let tree = Tree::read(document, &Options::default())?;
    let lines = LineIndex::new(document)?;
    let text = |bytes: &[u8]| String::from_utf8_lossy(bytes).into_owned();
    let (mut found, mut used) = (Vec::new(), HashSet::new());
    for node in tree.nodes().filter(|it| it.name() != Name::Definition) {
        let target = match node.link()? {
            Some(target) => target,
            None => continue,
        };
        let mut said = format!("{} to {}", node.name(), text(&target.destination));
        if let Some(title) = &target.title {
            said += &format!(", \"{}\"", text(title));
        }
        if let Some(definition) = target.definition {
            let from = definition.bytes().start;
            said += &format!(", by {}", lines.line_column(from));
            used.insert(definition);
        }
        found.push((node.bytes().start, said));
    }
    for node in tree.nodes() {
        if node.name() == Name::Definition && !used.contains(&node) {
            found.push((node.bytes().start, "Definition of nothing".to_string()));
        }
    }
    found.sort_by_key(|(from, _)| *from);
    let shown = found.iter();
    Ok(shown
        .map(|(from, said)| format!("{}: {}", lines.line_column(*from), said))
        .collect())
}

fn main() {
    for file in env::args().skip(1) {
        let document = fs::read(&file).expect("a file");
        for line in listed(&document).expect("it is read") {
            println!("{}:{}", file, line);
        }
    }
}

#[cfg(test)]
mod tests {
    use super::*;

    #[test]
    fn links_are_listed() {
        let document = "[a](b '&amp;') ![c](<d e>) <fg:h>\n\n> [h]: i\n\n`[a](b)`\n";
        let want = [
            "1:1: Link to b, \"&\"",
            "1:16: Image to d e",
            "1:28: Autolink to fg:h",
            "3:3: Definition of nothing",
        ];
        assert_eq!(listed(document.as_bytes()).unwrap(), want);
        let document = "[a][b] ![B][] [b]\n\n> [ B ]: c 'd'\n\n[b]: e\n";
        let want = [
            "1:1: Link to c, \"d\", by 3:3",
            "1:8: Image to c, \"d\", by 3:3",
            "1:15: Link to c, \"d\", by 3:3",
            "5:1: Definition of nothing",
        ];
        assert_eq!(listed(document.as_bytes()).unwrap(), want);
    }
}
