//! The names here and in the header, against the numbers that records and options are proved to have.

use limecove::{character_reference, Machine, Name};
use std::fmt::Display;
use std::fs;
use std::path::Path;

fn text(path: &str) -> String {
    let top = Path::new(env!("CARGO_MANIFEST_DIR")).join("../../..");
    fs::read_to_string(top.join(path)).unwrap()
}

/// A name as the header has it: `CodeText` as `CODE_TEXT`.
fn upper(name: &str) -> String {
    let mut upper = String::new();
    for (i, letter) in name.chars().enumerate() {
        if i > 0 && letter.is_uppercase() {
            upper.push('_');
        }
        upper.push(letter.to_ascii_uppercase());
    }
    upper
}

/// Whether these are the proved names, each at its number, and are all that the header has with this prefix.
fn compare<T: Display>(proved: &[(String, usize)], here: &[T], prefix: &str) {
    let header = text("bindings/limecove.h").replace("\n}", ",\n}");
    assert_eq!(proved.len(), here.len());
    for (name, number) in proved {
        assert_eq!(here[*number].to_string(), *name);
        let line = format!("    {prefix}{} = {number},\n", upper(name));
        assert!(header.contains(&line), "{line}");
    }
}

#[test]
fn names_of_spans_have_their_proved_numbers() {
    let proved: Vec<_> = text("crates/limecove/specs/Names.antt")
        .lines()
        .filter_map(|line| line.strip_prefix("number_of ")?.split_once(" = "))
        .map(|(name, number)| (name.to_string(), number.parse().unwrap()))
        .collect();
    assert_eq!(proved.len(), 142);
    compare(&proved, Name::ALL, "LIMECOVE_NAME_");
}

/// The void names are those of the list that is proved.
#[test]
fn void_names_are_those_that_are_proved() {
    let specs = text("crates/markdown_base/specs/VoidNames.antt");
    let (_, list) = specs.split_once("void_names =").unwrap();
    let proved: Vec<_> = list.split('∷').map(str::trim).collect();
    for name in Name::ALL {
        assert_eq!(name.is_void(), proved.contains(&name.as_str()), "{}", name);
    }
    assert_eq!(
        Name::ALL.iter().filter(|name| name.is_void()).count(),
        proved.len() - 1
    );
}

#[test]
fn machines_have_their_proved_numbers() {
    let proved: Vec<_> = text("crates/limecove/specs/Choices.antt")
        .split("(nat_eq n ")
        .skip(1)
        .filter_map(|rest| {
            let (number, rest) = rest.split_once(") (Some ")?;
            let (name, _) = rest.split_once(')')?;
            name.starts_with(char::is_uppercase).then_some(())?;
            Some((name.to_string(), number.parse().ok()?))
        })
        .collect();
    assert_eq!(proved.len(), 9);
    let mut machines = [Machine::ALL, Machine::FOR_TESTS].concat();
    machines.sort_by_key(|machine| *machine as u32);
    compare(&proved, &machines, "LIMECOVE_");
}

/// The named character references are those that are proved.
#[test]
fn references_are_those_that_are_proved() {
    let specs = text("crates/mdinline_characters/specs/CharacterReferences.antt");
    let mut count = 0;
    for entry in specs.split("(codes \"").skip(1) {
        let (name, rest) = entry.split_once("\", ").unwrap();
        let (codes, _) = rest.split_once("[])").unwrap();
        let characters: String = codes
            .split(" ∷ ")
            .filter_map(|code| code.strip_prefix("0x"))
            .map(|code| char::from_u32(u32::from_str_radix(code, 16).unwrap()).unwrap())
            .collect();
        assert_eq!(character_reference(name), Some(characters.as_str()));
        count += 1;
    }
    assert_eq!(count, 2125);
}
