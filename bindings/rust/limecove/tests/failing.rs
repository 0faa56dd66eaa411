//! Each allocation fails in turn, of this crate and of the library: a call then returns that it ran out of memory, or the events that it
//! returns with enough memory. It never aborts. It has a `main` of its own, as no other thread may allocate meanwhile.
//!
//! `malloc`, `calloc` and `realloc` are those of this program: std's allocator calls them, and so does the library. The C library's
//! own, glibc's, do their work.

use limecove::{
    normalized_label, spans, spans_by_start, to_html, tokenize, tokenize_text, with_ranges,
    Changed, Definitions, Document, Encoding, Error, Event, LineIndex, Machine, Options,
    TextOptions, Tree,
};
use std::ffi::c_void;
use std::fmt::Debug;
use std::ops::Range;
use std::sync::atomic::{AtomicBool, AtomicIsize, AtomicUsize, Ordering::Relaxed};

/// How many allocations succeed before one fails. None fails below 0.
static LEFT: AtomicIsize = AtomicIsize::new(-1);
/// Whether all that follow fail too.
static STAYS: AtomicBool = AtomicBool::new(false);
/// How many failed.
static FAILED: AtomicUsize = AtomicUsize::new(0);

extern "C" {
    fn __libc_malloc(size: usize) -> *mut c_void;
    fn __libc_calloc(count: usize, size: usize) -> *mut c_void;
    fn __libc_realloc(block: *mut c_void, size: usize) -> *mut c_void;
}

/// Whether this allocation fails.
fn fails() -> bool {
    let left = LEFT.load(Relaxed);
    if left > 0 || left == 0 && !STAYS.load(Relaxed) {
        LEFT.store(left - 1, Relaxed);
    }
    FAILED.fetch_add(usize::from(left == 0), Relaxed);
    left == 0
}

#[no_mangle]
extern "C" fn malloc(size: usize) -> *mut c_void {
    if fails() {
        return std::ptr::null_mut();
    }
    // SAFETY: it is the C library's own `malloc`.
    unsafe { __libc_malloc(size) }
}

#[no_mangle]
extern "C" fn calloc(count: usize, size: usize) -> *mut c_void {
    if fails() {
        return std::ptr::null_mut();
    }
    // SAFETY: it is the C library's own `calloc`.
    unsafe { __libc_calloc(count, size) }
}

/// # Safety
///
/// As of C's `realloc`.
#[no_mangle]
unsafe extern "C" fn realloc(block: *mut c_void, size: usize) -> *mut c_void {
    if fails() {
        return std::ptr::null_mut();
    }
    // it is the C library's own `realloc`, and the caller keeps its terms
    __libc_realloc(block, size)
}

/// What a call returns if the allocation after `left` others fails, and if it `stays` so also those after it. Then how many failed.
fn failing<T>(left: isize, stays: bool, call: impl FnOnce() -> T) -> (T, usize) {
    STAYS.store(stays, Relaxed);
    FAILED.store(0, Relaxed);
    LEFT.store(left, Relaxed);
    let result = call();
    LEFT.store(-1, Relaxed);
    (result, FAILED.load(Relaxed))
}

/// An edit of a document.
type Edit<'a> = dyn Fn(&mut Document) -> Result<Changed, Error> + 'a;

/// How many calls ran out of memory, and how many managed without what they were refused.
#[derive(Default)]
struct Ends {
    out: usize,
    read: usize,
}

impl Ends {
    /// Makes a call with each of its allocations failing, alone and with all after it.
    fn of_each(&mut self, call: impl Fn() -> Result<Vec<Event>, Error>) {
        let want = call().expect("there is memory");
        for stays in [false, true] {
            for left in 0.. {
                let (result, failed) = failing(left, stays, &call);
                match result {
                    Ok(events) => {
                        assert_eq!(events, want);
                        let (count, _) = failing(0, true, || spans(&events).count());
                        assert_eq!(count, events.len() / 2);
                        if failed == 0 {
                            break;
                        }
                        self.read += 1;
                    }
                    Err(error) => {
                        assert!(error == Error::OutOfMemory && failed > 0);
                        self.out += 1;
                    }
                }
            }
        }
        self.of_helpers(&want);
    }

    /// Puts the spans of events in order of their starts, and gives events with ranges, with each allocation failing.
    fn of_helpers(&mut self, events: &[Event]) {
        self.of_call(|| spans_by_start(events));
        self.of_call(|| {
            Ok(with_ranges(events)?
                .map(|(_, range)| range.len())
                .sum::<usize>())
        });
    }

    /// Makes a tree and an index of lines, and decodes each text, with each allocation failing.
    fn of_tree(&mut self, document: &str, events: &[Event]) {
        let tree = Tree::new(document, events).expect("there is memory");
        let depths = |tree: &Tree<'_>| tree.nodes().map(|node| node.span().depth).sum::<usize>();
        self.of_call(|| Ok(depths(&Tree::new(document, events)?)));
        for node in tree.nodes() {
            self.of_call(|| node.decoded());
            self.of_call(|| node.fence_info());
            self.of_call(|| node.cut_text());
            self.of_call(|| Ok(node.link()?.map(|to| (to.destination, to.title))));
            self.of_call(|| Ok(node.definition()?.map(|it| it.span())));
            self.of_call(|| node.normalized_label());
            self.of_call(|| node.alignments());
        }
        self.of_call(|| Ok(LineIndex::new(document)?.line_count()));
        self.of_call(|| LineIndex::new(document)?.places(&[0, 1, 2], Encoding::Utf16));
    }

    /// Edits a document and asks for its events, with each allocation failing. If an edit fails, the document is as it was.
    fn of_edit(&mut self, bytes: &str, range: Range<usize>, with: &str) {
        let options = Options::default();
        let made = || Document::new(bytes, &options);
        let before = made().and_then(|document| document.events());
        let before = before.expect("there is memory");
        let several = [(0..0, &b"c"[..]), (range.clone(), with.as_bytes())];
        self.of_call(|| {
            let mut document = made()?;
            document.replace(range.clone(), with)?;
            let others = document.others()?;
            let definition = document.definition_of("B")?;
            let undefined = document.undefined(0..document.sections())?;
            Ok((document.events()?, others, definition, undefined))
        });
        self.of_call(|| {
            let mut document = made()?;
            document.replace_all(&several)?;
            document.events()
        });
        self.of_call(|| normalized_label(bytes));
        self.of_definitions(bytes, range.clone(), with);
        let edits: [&Edit<'_>; 2] = [
            &|document| document.replace(range.clone(), with),
            &|document| document.replace_all(&several),
        ];
        for edit in edits {
            for left in 0.. {
                let mut document = made().expect("there is memory");
                let (result, failed) = failing(left, true, || edit(&mut document));
                match result {
                    Ok(_) => {
                        assert_eq!(failed, 0);
                        break;
                    }
                    Err(error) => {
                        assert!(error == Error::OutOfMemory && failed > 0);
                        assert_eq!(document.events().expect("there is memory"), before);
                        assert_eq!(document.bytes(), bytes.as_bytes());
                        self.out += 1;
                    }
                }
            }
        }
    }

    /// Makes and updates definitions, and asks trees of sections and a snapshot, with each allocation failing. If an update fails, they are as they
    /// were.
    fn of_definitions(&mut self, bytes: &str, range: Range<usize>, with: &str) {
        let made = || Document::new(bytes, &Options::default());
        let mut document = made().expect("there is memory");
        let before = Definitions::of_document(&document).expect("there is memory");
        let change = document.replace(range, with).expect("there is memory");
        let after = Definitions::of_document(&document).expect("there is memory");
        self.of_call(|| Definitions::of_document(&document));
        self.of_call(|| Ok(after.get(b" b ")?.map(|it| it.bytes.clone())));
        self.of_call(|| {
            let tree = document.tree(0..document.sections(), &after)?;
            let mut found = Vec::with_capacity(0);
            for node in tree.nodes() {
                if let Some(to) = node.link()? {
                    found.try_reserve(1).map_err(|_| Error::OutOfMemory)?;
                    found.push((to.destination, to.title, to.defined_at));
                }
            }
            Ok(found)
        });
        self.of_call(|| {
            let snapshot = document.snapshot()?;
            let spans = snapshot.tree()?.nodes().count();
            Ok((spans, snapshot.lines()?.line_count()))
        });
        for left in 0.. {
            let mut definitions = before.clone();
            let (result, failed) = failing(left, true, || definitions.update(&document, &change));
            match result {
                Ok(()) => {
                    assert_eq!((definitions, failed), (after, 0));
                    break;
                }
                Err(error) => {
                    assert!(error == Error::OutOfMemory && failed > 0);
                    assert_eq!(definitions, before);
                    self.out += 1;
                }
            }
        }
    }

    /// Asks a document by sections with each allocation failing, and for places without any memory: these need none.
    fn of_lookups(&mut self, bytes: &str) {
        let document = Document::new(bytes, &Options::default()).expect("there is memory");
        let sections = document.sections();
        for section in 0..sections {
            self.of_call(|| document.events_in(section..section + 1));
            self.of_call(|| Ok(document.section_bytes(section)?.len()));
        }
        let asked = |byte| {
            let place = document.place(byte, Encoding::Utf16);
            let back = place.and_then(|it| document.index(it, Encoding::Utf16));
            let nearest = place.map(|it| document.nearest(it, Encoding::Utf16));
            let section = document.section_at(byte);
            (place, back, nearest, section, document.start_of(section))
        };
        for byte in 0..=bytes.len() {
            let want = (asked(byte), document.line_count(), document.is_empty());
            let call = || (asked(byte), document.line_count(), document.is_empty());
            assert_eq!(failing(0, true, call), (want, 0));
        }
    }

    /// Makes a call with each of its allocations failing, alone and with all after it.
    fn of_call<T: PartialEq + Debug>(&mut self, call: impl Fn() -> Result<T, Error>) {
        let want = call().expect("there is memory");
        for stays in [false, true] {
            for left in 0.. {
                let (result, failed) = failing(left, stays, &call);
                match result {
                    Ok(found) => {
                        assert_eq!(found, want);
                        if failed == 0 {
                            break;
                        }
                        self.read += 1;
                    }
                    Err(error) => {
                        assert!(error == Error::OutOfMemory && failed > 0);
                        self.out += 1;
                    }
                }
            }
        }
    }
}

fn main() {
    let documents: [&[u8]; 5] = [
        b"",
        b"a `code` <https://b.c> \\* d\n> \te\r\nf",
        &b"ab\n".repeat(40),
        &b"`a` <b:c> ".repeat(20),
        &b"`".repeat(500),
    ];
    let mut ends = Ends::default();
    for document in documents {
        for &machine in Machine::ALL.iter().chain(Machine::FOR_TESTS) {
            for deep in [false, true] {
                if !deep || machine.links_text() {
                    let options = Options::default().machine(machine).deep(deep);
                    ends.of_each(|| tokenize(document, &options));
                }
            }
        }
        ends.of_each(|| tokenize_text(document, &TextOptions::default()));
    }
    assert!(ends.out > 0 && ends.read > 0);
    let document = "# a *b* &nGt; ` c `\n\n~~~ d\\* e &amp;\n\tf\0\n~~~\n    g\n";
    let events = tokenize(document, &Options::default()).expect("there is memory");
    ends.of_tree(document, &events);
    for document in [
        "[a](b\\*c&copy; 'd &amp; e') ![f](<g>) <h:i> <j@k.l>",
        "[a][B] ![b][]\n\n> [b]: c\\* 'd &amp;'\n> [e\n> f]: <g>\n\n[ B ]: h\n\n[e\n f]",
    ] {
        let events = tokenize(document, &Options::default()).expect("there is memory");
        ends.of_tree(document, &events);
    }
    let table = "|a|b|\n|-|:-|\n|*c*|\n";
    let events = tokenize(table, &Options::default().gfm_table(true));
    ends.of_tree(table, &events.expect("there is memory"));
    let quotes = "\"".repeat(500);
    for document in ["", document, "- [a](b 'c')\n\n  ![d](e:f)\n", &quotes] {
        ends.of_call(|| to_html(document));
    }
    ends.of_edit("# a\n\n[b]\n\n# c\n", 14..14, "\n[b]: d\n");
    ends.of_edit("# a\n\n[b]\n\n# c\n\n[b]: d\n", 15..22, "");
    for document in ["", document, "# a\n\n[b] é😀\r\n\n- c\n\n[b]: d\n\ne"] {
        ends.of_lookups(document);
    }
    println!(
        "{} calls ran out of memory, and {} managed without",
        ends.out, ends.read
    );
}
