//! Labels: what one is, and how two are compared.

use limecove::{is_label, normalized_label};

#[test]
fn labels_are_told_from_others() {
    let (long, wide) = ("a".repeat(999), "é".repeat(999));
    for label in [
        "a",
        " a ",
        "\\[",
        "a\\]b",
        "\\\\",
        "a\nb",
        "é",
        long.as_str(),
        wide.as_str(),
    ] {
        assert!(is_label(label), "{label:?}");
    }
    let longer = long.clone() + "a";
    for other in ["", " ", "\t\r\n", "[", "]", "a[b", "\\\\]", longer.as_str()] {
        assert!(!is_label(other), "{other:?}");
    }
    assert!(is_label(b"\xff"));
}

#[test]
fn labels_are_compared() {
    for (label, normal) in [
        ("", ""),
        (" \n ", ""),
        ("a", "A"),
        ("\ta\r\n  b ", "A B"),
        ("ß", "SS"),
        ("ẞ", "SS"),
        ("ı", "ı"),
        ("i", "I"),
        ("ΑΓΩ", "ΑΓΩ"),
        ("αγω", "ΑΓΩ"),
        ("\\*", "\\*"),
        ("a\0", "A\u{fffd}"),
    ] {
        assert_eq!(
            normalized_label(label).unwrap(),
            normal.as_bytes(),
            "{label:?}"
        );
    }
    // the form is longer than the label
    let (label, normal) = ("\u{390}", "\u{399}\u{308}\u{301}");
    assert_eq!(
        normalized_label(label.repeat(10)).unwrap(),
        normal.repeat(10).as_bytes()
    );
    // what is no UTF-8 has its ASCII letters in upper case alone
    assert_eq!(
        normalized_label(b"\xff\xc3\xa4 b").unwrap(),
        b"\xff\xc3\xa4 B"
    );
}
