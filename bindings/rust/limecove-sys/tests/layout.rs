//! The layout of each struct, field by field, as the library has it.

use limecove_sys::{
    limecove_close, limecove_copy, limecove_echo, limecove_echo_html, limecove_echo_range,
    limecove_html, limecove_open_text, limecove_read_text_in, limecove_version, Answer, ByteRange,
    HtmlOptions, Options, Reading, Record, TextOptions, ALLOW_DANGEROUS_HTML, ALL_CONSTRUCTS,
    HTML_CONSTRUCTS, NO_READING, READ, VERSION,
};
use std::mem::size_of;

/// A record of one number in each field.
fn all(number: usize) -> Record {
    Record {
        kind: number as u16,
        content: number as u16,
        name: number as u32,
        line: number,
        column: number,
        index: number,
        vs: number,
        previous: number,
        next: number,
    }
}

/// The numbers have bits in each byte of a field, so that a field that is cut or moved shows.
#[test]
fn each_field_crosses() {
    let long = |number: usize| 0x0101_0101_0101_0101 * number;
    let options = Options {
        size: long(1),
        tab_size: long(2),
        constructs: long(3) as u64,
        cut: long(4),
        machine: 0x0505_0505,
        deep: 0x0606_0606,
    };
    let text = TextOptions {
        size: long(7),
        tab_size: long(8),
        constructs: long(9) as u64,
    };
    let [mut numbers, mut of_options, mut of_text] = [all(!0); 3];
    // SAFETY: the version is compared first, and each pointer is to its type.
    let (version, answer) = unsafe {
        assert_eq!(limecove_version(), VERSION);
        let answer = limecove_echo(&options, &text, &mut numbers, &mut of_options, &mut of_text);
        (limecove_version(), answer)
    };
    assert_eq!(
        answer,
        Answer {
            code: 1,
            version,
            count: 3
        }
    );
    let want = Record {
        kind: 1,
        content: 2,
        name: 3,
        line: 4,
        column: 5,
        index: 6,
        vs: 7,
        previous: 8,
        next: 9,
    };
    assert_eq!(numbers, want);
    let want = Record {
        name: 0x0505_0505,
        line: long(1),
        column: long(2),
        index: long(4),
        vs: 0x0606_0606,
        previous: long(3),
        ..all(0)
    };
    assert_eq!(of_options, want);
    let want = Record {
        line: long(7),
        column: long(8),
        previous: long(9),
        ..all(0)
    };
    assert_eq!(of_text, want);
}

#[test]
fn ranges_cross() {
    let long = |number: usize| 0x0101_0101_0101_0101 * number;
    let range = ByteRange {
        from: long(1),
        to: long(2),
    };
    let mut of_range = all(!0);
    let ranges = [ByteRange { from: 0, to: 1 }, ByteRange { from: 1, to: 2 }];
    let mut records = [all(9); 4];
    let options = TextOptions {
        size: size_of::<TextOptions>(),
        tab_size: 0,
        constructs: ALL_CONSTRUCTS,
    };
    // SAFETY: the version is compared first, and each pointer is to its type.
    let answer = unsafe {
        assert_eq!(limecove_version(), VERSION);
        limecove_echo_range(&range, &mut of_range);
        let room = &mut records[1..3];
        limecove_read_text_in(
            b"ab".as_ptr(),
            2,
            ranges.as_ptr(),
            2,
            &options,
            room.as_mut_ptr(),
            room.len(),
        )
    };
    let want = Record {
        line: long(1),
        column: long(2),
        ..all(0)
    };
    assert_eq!(of_range, want);
    assert_eq!((answer.code, answer.count), (READ, 2));
    assert_eq!((records[1].index, records[2].index), (0, 2));
    assert_eq!((records[0], records[3]), (all(9), all(9)));
}

/// A record as the library leaves it of options of HTML, and HTML in room for a part of it.
#[test]
fn html_crosses() {
    let long = |number: usize| 0x0101_0101_0101_0101 * number;
    let options = HtmlOptions {
        size: long(1),
        tab_size: long(2),
        constructs: long(3) as u64,
        allow: long(4) as u64,
    };
    let mut of_options = all(!0);
    let html = HtmlOptions {
        size: size_of::<HtmlOptions>(),
        tab_size: 0,
        constructs: HTML_CONSTRUCTS,
        allow: ALLOW_DANGEROUS_HTML,
    };
    let mut out = [0xa5; 12];
    // SAFETY: the version is compared first, and each pointer is to its type.
    let answer = unsafe {
        assert_eq!(limecove_version(), VERSION);
        limecove_echo_html(&options, &mut of_options);
        let room = &mut out[1..11];
        limecove_html(b"a <b>".as_ptr(), 5, &html, room.as_mut_ptr(), room.len())
    };
    let want = Record {
        line: long(1),
        column: long(2),
        previous: long(3),
        next: long(4),
        ..all(0)
    };
    assert_eq!(of_options, want);
    assert_eq!((answer.code, answer.count), (READ, 13));
    assert_eq!(&out, b"\xa5<p>a <b></\xa5");
}

#[test]
fn sizes_are_those_of_the_library() {
    assert_eq!((size_of::<Options>(), size_of::<TextOptions>()), (40, 24));
    assert_eq!(size_of::<HtmlOptions>(), 32);
    assert_eq!((size_of::<Record>(), size_of::<Answer>()), (56, 16));
    assert_eq!((size_of::<Reading>(), size_of::<ByteRange>()), (16, 16));
}

#[test]
fn a_reading_is_open_until_it_is_closed() {
    let options = TextOptions {
        size: size_of::<TextOptions>(),
        tab_size: 0,
        constructs: ALL_CONSTRUCTS,
    };
    let mut readings = [NO_READING, NO_READING, NO_READING];
    let mut records = [all(9); 3];
    // SAFETY: the version is compared first, and each pointer is to its type. The reading is closed when it is opened.
    unsafe {
        assert_eq!(limecove_version(), VERSION);
        let answer = limecove_open_text(b"a".as_ptr(), 1, &options, &mut readings[1]);
        assert_eq!((answer.code, answer.count), (READ, 2));
        assert_eq!(readings[1].is_open, 1);
        assert!(!readings[1].list.is_null());
        assert_eq!(limecove_copy(&mut readings[1], 1, &mut records[1], 2), 1);
        limecove_close(&mut readings[1]);
        assert_eq!(readings[1].is_open, 0);
        assert_eq!(limecove_copy(&mut readings[1], 0, &mut records[1], 2), 0);
    }
    assert_eq!((records[1].kind, records[1].index), (1, 1));
    assert_eq!((records[0], records[2]), (all(9), all(9)));
    for guard in [&readings[0], &readings[2]] {
        assert!(guard.is_open == 0 && guard.list.is_null());
    }
}
