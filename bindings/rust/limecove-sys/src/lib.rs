//! The functions of `liblimecove.a`, the static library of Limecove, as they are: raw pointers, numbers and codes. The crate `limecove`
//! calls them safely.
//!
//! A slice crosses as a pointer and a length. Both may be null and 0. A call keeps no state, and no memory but that of an open
//! [`Reading`], so calls may run at the same time. What each function returns is proved; what its caller owes is in its section on safety.
//!
//! If a program is linked and `liblimecove.a` is not found, set `LIMECOVE_LIB` to the folder that has it.
#![deny(missing_docs)]
#![no_std]

use core::ffi::c_void;
use core::ptr::null_mut;

/// The version of these declarations. [`limecove_version`] has that of the library, and is asked first.
pub const VERSION: u32 = 5;

/// The document was read.
pub const READ: u32 = 0;
/// The call ran out of memory.
pub const OUT_OF_MEMORY: u32 = 1;
/// The tab size times the length of the document, and one more, does not fit `usize`.
pub const TOO_LONG: u32 = 2;
/// The options have another size.
pub const OTHER_SIZE: u32 = 3;
/// The tab size is above 16.
pub const NO_SUCH_TAB_SIZE: u32 = 4;
/// A bit is set that is no construct's.
pub const NO_SUCH_CONSTRUCT: u32 = 5;
/// There is no machine of this number.
pub const NO_SUCH_MACHINE: u32 = 6;
/// `deep` is on for a machine that links no text.
pub const LINKS_NO_TEXT: u32 = 7;

/// The ranges cannot be read as one text, or the document has no such sections.
pub const NO_SUCH_RANGES: u32 = 8;
/// A range is not in the document, or a place is at none of its characters.
pub const NO_SUCH_BYTES: u32 = 9;
/// The document is not open.
pub const NOT_OPEN: u32 = 10;
/// A bit is set of what HTML may let through that lets nothing through.
pub const NO_SUCH_PERMISSION: u32 = 11;

/// The bit of code spans.
pub const CODE_TEXT: u64 = 1;
/// The bit of autolinks.
pub const AUTOLINK: u64 = 2;
/// The bit of backslash escapes.
pub const CHARACTER_ESCAPE: u64 = 4;
/// The bit of emphasis.
pub const ATTENTION: u64 = 8;
/// The bit of character references.
pub const CHARACTER_REFERENCE: u64 = 16;
/// The bit of hard breaks by a backslash.
pub const HARD_BREAK_ESCAPE: u64 = 32;
/// The bit of hard breaks by spaces.
pub const HARD_BREAK_TRAILING: u64 = 64;
/// The bit of raw HTML in texts.
pub const HTML_TEXT: u64 = 128;
/// The bit of fenced code.
pub const CODE_FENCED: u64 = 256;
/// The bit of indented code.
pub const CODE_INDENTED: u64 = 512;
/// The bit of ATX headings.
pub const HEADING_ATX: u64 = 1024;
/// The bit of setext headings.
pub const HEADING_SETEXT: u64 = 2048;
/// The bit of HTML blocks.
pub const HTML_FLOW: u64 = 4096;
/// The bit of thematic breaks.
pub const THEMATIC_BREAK: u64 = 8192;
/// The bit of block quotes.
pub const BLOCK_QUOTE: u64 = 16384;
/// The bit of list items.
pub const LIST_ITEM: u64 = 32768;
/// The bit of starts of link labels.
pub const LABEL_START_LINK: u64 = 65536;
/// The bit of starts of image labels.
pub const LABEL_START_IMAGE: u64 = 131072;
/// The bit of ends of labels, with what follows them: without it there are no links and no images.
pub const LABEL_END: u64 = 262144;
/// The bit of link reference definitions.
pub const DEFINITION: u64 = 524288;
/// The bits of CommonMark's constructs: all of these.
pub const COMMONMARK: u64 = 1048575;
/// The bit of strikethrough of GFM.
pub const GFM_STRIKETHROUGH: u64 = 1048576;
/// The bits of all constructs that each call takes. Up to version 3 they were 16383, and those from [`BLOCK_QUOTE`] on were on without bits. They grow with each construct
/// that is added; [`COMMONMARK`] stays.
pub const ALL_CONSTRUCTS: u64 = 2097151;
/// The bit of autolink literals of GFM: in HTML, and in whole documents with their texts (machine 8, `deep`).
pub const GFM_AUTOLINK_LITERAL: u64 = 2097152;
/// The bit of checks of task list items of GFM: in HTML, and in whole documents with their texts.
pub const GFM_TASK_LIST_ITEM: u64 = 4194304;
/// The bit of tables of GFM: in HTML, and in whole documents with their texts.
pub const GFM_TABLE: u64 = 8388608;
/// The bit of definitions of footnotes, as GitHub reads them: in HTML, and in whole documents with their texts.
pub const GFM_FOOTNOTE_DEFINITION: u64 = 16777216;
/// The bit of calls of footnotes, as GitHub reads them: in HTML, and in whole documents with their texts.
pub const GFM_LABEL_START_FOOTNOTE: u64 = 33554432;
/// The bits of all constructs that HTML has, and whole documents with their texts.
pub const HTML_CONSTRUCTS: u64 = 67108863;
/// The bit that leaves one tilde out: two alone strike through. It is no construct, and is taken in HTML, and in whole documents with their texts.
pub const GFM_STRIKETHROUGH_DOUBLE_TILDE: u64 = 67108864;

/// The bit of HTML in the document, which is kept as HTML. Without it, it is shown as text.
pub const ALLOW_DANGEROUS_HTML: u64 = 1;
/// The bit of addresses of any protocol, of links and images.
pub const ALLOW_DANGEROUS_PROTOCOL: u64 = 2;
/// The bit of addresses of any protocol, of images alone.
pub const ALLOW_ANY_IMG_SRC: u64 = 4;
/// The bits of all that HTML may let through.
pub const ALLOW_ALL: u64 = 7;
/// The bit of GFM's filter of tags, for HTML that is kept. It is no protection.
pub const GFM_TAGFILTER: u64 = 8;

/// An index in a record's link that there is not.
pub const NO_INDEX: usize = usize::MAX;

/// How a call ended, and how many there are of what it writes: events, or bytes of HTML.
#[repr(C)]
#[derive(Clone, Copy, Debug, PartialEq, Eq)]
pub struct Answer {
    /// [`READ`], or why the document was not read.
    pub code: u32,
    /// [`VERSION`] of the library.
    pub version: u32,
    /// How many events the document has, or how many bytes its HTML, also if there are more than fit. 0 if it was not read.
    pub count: usize,
}

/// How text is read.
#[repr(C)]
#[derive(Clone, Copy, Debug, PartialEq, Eq)]
pub struct TextOptions {
    /// `size_of::<TextOptions>()`.
    pub size: usize,
    /// The distance from one tab stop to the next, from 1 to 16 columns. 0 is 4.
    pub tab_size: usize,
    /// The constructs that are on: the sum of their bits.
    pub constructs: u64,
}

/// How a document is read.
#[repr(C)]
#[derive(Clone, Copy, Debug, PartialEq, Eq)]
pub struct Options {
    /// `size_of::<Options>()`.
    pub size: usize,
    /// The distance from one tab stop to the next, from 1 to 16 columns. 0 is 4.
    pub tab_size: usize,
    /// The constructs that are on: the sum of their bits, of [`ALL_CONSTRUCTS`]; of [`HTML_CONSTRUCTS`], perhaps with
    /// [`GFM_STRIKETHROUGH_DOUBLE_TILDE`], if the machine is 8 and `deep` is not 0.
    pub constructs: u64,
    /// After how many virtual bytes the document is cut each time. If it is 0, the document is not cut.
    pub cut: usize,
    /// The number of the machine that reads: 1 for paragraphs, 6 for text, 7 for flow, 8 for document. 0 and 2 to 5 are for tests.
    pub machine: u32,
    /// If it is not 0, the chunks of text that the machine links are read too.
    pub deep: u32,
}

/// How a document is read, and what its HTML may let through.
#[repr(C)]
#[derive(Clone, Copy, Debug, PartialEq, Eq)]
pub struct HtmlOptions {
    /// `size_of::<HtmlOptions>()`.
    pub size: usize,
    /// The distance from one tab stop to the next, from 1 to 16 columns. 0 is 4.
    pub tab_size: usize,
    /// The constructs that are on: the sum of their bits, of [`HTML_CONSTRUCTS`], perhaps with [`GFM_STRIKETHROUGH_DOUBLE_TILDE`].
    pub constructs: u64,
    /// What the HTML may let through: the sum of the bits. If it is 0, the HTML is safe.
    pub allow: u64,
}

/// A range of a document. Ranges can be read as one text if none runs backwards or past the end, and each begins where the one before it
/// ends; or that one ends at the beginning of a line, and the next begins later in the line. The first begins anywhere.
#[repr(C)]
#[derive(Clone, Copy, Debug, PartialEq, Eq)]
pub struct ByteRange {
    /// The index of its first byte.
    pub from: usize,
    /// The index of the byte behind its last one.
    pub to: usize,
}

/// An event. All of its bytes are in fields, and each may be any number.
#[repr(C)]
#[derive(Clone, Copy, Debug, PartialEq, Eq, Hash)]
pub struct Record {
    /// 0 if a span begins, 1 if it ends.
    pub kind: u16,
    /// What the event's chain is read as, if it is linked: 1 for flow, 2 for content, 3 for string, 4 for text; else 0.
    pub content: u16,
    /// The number of the span's name.
    pub name: u32,
    /// Line, from 1.
    pub line: usize,
    /// Virtual column in the line, from 1.
    pub column: usize,
    /// Byte index into the document, from 0.
    pub index: usize,
    /// Number of the virtual byte of a tab, from 0; 0 elsewhere.
    pub vs: usize,
    /// Index of the enter before in the chain, or [`NO_INDEX`].
    pub previous: usize,
    /// Index of the enter after in the chain, or [`NO_INDEX`].
    pub next: usize,
}

/// A document that was read, with its events in the library's memory. Nobody but the library changes its fields. One thread
/// at a time uses it, and there are no two copies of it.
#[repr(C)]
#[derive(Debug)]
pub struct Reading {
    /// 1 if it is open, 0 if it is not.
    pub is_open: usize,
    /// Its events, if it is open.
    pub list: *mut c_void,
}

/// A reading begins so. It is not open.
pub const NO_READING: Reading = Reading {
    is_open: 0,
    list: null_mut(),
};

/// A document that can be edited, in the library's memory. Nobody but the library changes its fields. One thread at a time uses it, and
/// there are no two copies of it. It is cut into sections, which are numbered from 0, and an edit reads only some.
#[repr(C)]
#[derive(Debug)]
pub struct Document {
    /// 1 if it is open, 0 if it is not.
    pub is_open: usize,
    /// The document, if it is open.
    pub held: *mut c_void,
}

/// A document begins so. It is not open.
pub const NO_DOCUMENT: Document = Document {
    is_open: 0,
    held: null_mut(),
};

/// What an edit changed. Sections in front of the replaced ones and behind them have the bytes that they had.
#[repr(C)]
#[derive(Clone, Copy, Debug, Default, PartialEq, Eq)]
pub struct Changed {
    /// The first section that was replaced, and the first new one.
    pub from: usize,
    /// The section behind the last that was replaced, as sections were numbered before.
    pub old_to: usize,
    /// The section behind the last new one, as they are numbered now.
    pub new_to: usize,
    /// Where the new sections start: a byte index into the document as it is now.
    pub start: usize,
    /// Where they end: the index of the byte behind them.
    pub end: usize,
    /// Of how many other sections something is new: [`limecove_document_others`] says which.
    pub others: usize,
}

/// A section has other events than before, since a label came or went.
pub const WHY_EVENTS: u32 = 0;
/// A section has the events that it had, and a link or an image in it leads elsewhere.
pub const WHY_TARGETS: u32 = 1;

/// A section that an edit did not replace, and of which something is new.
#[repr(C)]
#[derive(Clone, Copy, Debug, Default, PartialEq, Eq)]
pub struct Named {
    /// Its number, as sections are numbered now.
    pub section: usize,
    /// Why it is named: [`WHY_EVENTS`] or [`WHY_TARGETS`].
    pub why: u32,
}

/// A place in a document as editors ask for it.
#[repr(C)]
#[derive(Clone, Copy, Debug, Default, PartialEq, Eq)]
pub struct Place {
    /// The line, from 0.
    pub line: usize,
    /// The units of the line in front of the place: bytes of UTF-8, or units of UTF-16.
    pub character: usize,
}

/// A definition in a document.
#[repr(C)]
#[derive(Clone, Copy, Debug, Default, PartialEq, Eq)]
pub struct Defined {
    /// The section in which it begins.
    pub section: usize,
    /// Where it begins: a byte index into the document.
    pub from: usize,
    /// Where it ends: the index of the byte behind it.
    pub to: usize,
}

extern "C" {
    /// The version of the library. If it is not [`VERSION`], no other function may be called.
    ///
    /// # Safety
    ///
    /// It requires nothing.
    pub fn limecove_version() -> u32;

    /// Reads a document. Writes the first events over the first records, as many as fit, and nothing else.
    ///
    /// # Safety
    ///
    /// The library has this [`VERSION`]. Each pointer is to as many bytes or records as the length after it says, or the length is 0.
    /// `options` is to options. The records share no byte with the document or the options.
    pub fn limecove_read(
        document: *const u8,
        document_len: usize,
        options: *const Options,
        records: *mut Record,
        records_len: usize,
    ) -> Answer;

    /// Reads a document as text, without paragraphs. Writes records as [`limecove_read`] does.
    ///
    /// # Safety
    ///
    /// As of [`limecove_read`].
    pub fn limecove_read_text(
        document: *const u8,
        document_len: usize,
        options: *const TextOptions,
        records: *mut Record,
        records_len: usize,
    ) -> Answer;

    /// Reads a document. If the code is [`READ`], the reading is open, and has the events. Else it is not open.
    ///
    /// # Safety
    ///
    /// As of [`limecove_read`], and the reading is not open: its memory would be lost.
    pub fn limecove_open(
        document: *const u8,
        document_len: usize,
        options: *const Options,
        reading: *mut Reading,
    ) -> Answer;

    /// Reads a document as text, without paragraphs, as [`limecove_open`] does.
    ///
    /// # Safety
    ///
    /// As of [`limecove_open`].
    pub fn limecove_open_text(
        document: *const u8,
        document_len: usize,
        options: *const TextOptions,
        reading: *mut Reading,
    ) -> Answer;

    /// Reads ranges of a document as one text. What is between them is never read. Writes records as [`limecove_read`] does.
    ///
    /// # Safety
    ///
    /// As of [`limecove_read`], of the ranges too.
    pub fn limecove_read_text_in(
        document: *const u8,
        document_len: usize,
        ranges: *const ByteRange,
        ranges_len: usize,
        options: *const TextOptions,
        records: *mut Record,
        records_len: usize,
    ) -> Answer;

    /// Reads ranges of a document as one text, as [`limecove_read_text_in`] and [`limecove_open`] do.
    ///
    /// # Safety
    ///
    /// As of [`limecove_open`], of the ranges too.
    pub fn limecove_open_text_in(
        document: *const u8,
        document_len: usize,
        ranges: *const ByteRange,
        ranges_len: usize,
        options: *const TextOptions,
        reading: *mut Reading,
    ) -> Answer;

    /// Writes the events of a reading from this one on over the first records, as many as fit. Returns how many were written. A
    /// reading that is not open has no events.
    ///
    /// # Safety
    ///
    /// The reading is [`NO_READING`], or as a call of the library left it. The records share no byte with it, and are as many as the
    /// length says.
    pub fn limecove_copy(
        reading: *mut Reading,
        from: usize,
        records: *mut Record,
        records_len: usize,
    ) -> usize;

    /// Gives back the memory of a reading, which is then not open. If it is not open, nothing changes.
    ///
    /// # Safety
    ///
    /// The reading is [`NO_READING`], or as a call of the library left it.
    pub fn limecove_close(reading: *mut Reading);

    /// Makes a document HTML. Writes the first bytes of the HTML over the first bytes of `out`, as many as fit, and nothing else. The count
    /// is how many bytes the HTML has. If the code is not [`READ`], nothing is written.
    ///
    /// # Safety
    ///
    /// The library has this [`VERSION`]. Each pointer is to as many bytes as the length after it says, or the length is 0. `options` is to
    /// options. `out` shares no byte with the document or the options.
    pub fn limecove_html(
        document: *const u8,
        document_len: usize,
        options: *const HtmlOptions,
        out: *mut u8,
        out_len: usize,
    ) -> Answer;

    /// Reads a whole document with these constructs and tab stops, and keeps it for edits. If the code is [`READ`], it is open, and the
    /// count is that of its sections. Else it is not open.
    ///
    /// # Safety
    ///
    /// As of [`limecove_read`], and the document is not open: its memory would be lost.
    pub fn limecove_document_new(
        bytes: *const u8,
        bytes_len: usize,
        options: *const TextOptions,
        document: *mut Document,
    ) -> Answer;

    /// Puts bytes in the place of those from one up to another, and writes what changed. The count is that of the sections now. If the
    /// code is not [`READ`], the document is as it was, and nothing is written.
    ///
    /// # Safety
    ///
    /// The document is [`NO_DOCUMENT`], or as a call of the library left it. The bytes are as many as the length says, `change` is to what
    /// its type says, and no two of the three share a byte.
    pub fn limecove_document_replace(
        document: *mut Document,
        from: usize,
        to: usize,
        with: *const u8,
        with_len: usize,
        change: *mut Changed,
    ) -> Answer;

    /// Writes the events of the sections from one up to another over the first records, as many as fit. Their places and links are those
    /// in the whole document. The count is that of these events, and 0 if the code is not [`READ`].
    ///
    /// # Safety
    ///
    /// The document is [`NO_DOCUMENT`], or as a call of the library left it. The records share no byte with it, and are as many as the
    /// length says.
    pub fn limecove_document_events(
        document: *mut Document,
        from: usize,
        to: usize,
        records: *mut Record,
        records_len: usize,
    ) -> Answer;

    /// Writes the sections that the last edit did not replace and of which something is new, in order, from this one of them on, over the
    /// first of others, as many as fit. Returns how many were written.
    ///
    /// # Safety
    ///
    /// As of [`limecove_document_events`].
    pub fn limecove_document_others(
        document: *mut Document,
        from: usize,
        named: *mut Named,
        named_len: usize,
    ) -> usize;

    /// Writes the place of a byte index, in units of UTF-8 if `utf16` is 0, else of UTF-16. Returns [`READ`], [`NO_SUCH_BYTES`] behind the
    /// document's end and in a character, or [`NOT_OPEN`]. Only for [`READ`] it writes.
    ///
    /// # Safety
    ///
    /// The document is [`NO_DOCUMENT`], or as a call of the library left it. `place` is to what its type says, and shares no byte with it.
    pub fn limecove_document_place(
        document: *mut Document,
        byte: usize,
        utf16: u32,
        place: *mut Place,
    ) -> u32;

    /// Writes the byte index of a place, in units of UTF-8 if `utf16` is 0, else of UTF-16. Behind a line's end it is the line's end.
    /// Returns codes and writes as [`limecove_document_place`] does: [`NO_SUCH_BYTES`] for a line that there is not, and in a character.
    ///
    /// # Safety
    ///
    /// As of [`limecove_document_place`].
    pub fn limecove_document_index(
        document: *mut Document,
        line: usize,
        character: usize,
        utf16: u32,
        index: *mut usize,
    ) -> u32;

    /// The section that a byte is in. At the document's end or behind it, the number of sections. 0 if it is not open.
    ///
    /// # Safety
    ///
    /// The document is [`NO_DOCUMENT`], or as a call of the library left it.
    pub fn limecove_document_section_at(document: *mut Document, byte: usize) -> usize;

    /// Where a section starts: the index of its first byte. Behind the last section, how many bytes the document has. 0 if it is not open.
    ///
    /// # Safety
    ///
    /// As of [`limecove_document_section_at`].
    pub fn limecove_document_start_of(document: *mut Document, section: usize) -> usize;

    /// Writes the bytes of a document from one index up to another over the first bytes of `out`, as many as fit. The count is how many they
    /// are. If the code is not [`READ`], nothing is written: it is [`NO_SUCH_BYTES`] for a range that is none of the document.
    ///
    /// # Safety
    ///
    /// The document is [`NO_DOCUMENT`], or as a call of the library left it. `out` shares no byte with it, and has as many bytes as the length
    /// says.
    pub fn limecove_document_bytes(
        document: *mut Document,
        from: usize,
        to: usize,
        out: *mut u8,
        out_len: usize,
    ) -> Answer;

    /// Writes where the first definition of a label is. The label is as it stands in brackets, and need not be normalized. It goes over all
    /// events. The count is 1, or 0 if nothing defines the label. Only for the count 1 it writes.
    ///
    /// # Safety
    ///
    /// The document is [`NO_DOCUMENT`], or as a call of the library left it. The label has as many bytes as the length says, `found` is to what
    /// its type says, and no two of the three share a byte.
    pub fn limecove_document_definition_of(
        document: *mut Document,
        label: *const u8,
        label_len: usize,
        found: *mut Defined,
    ) -> Answer;

    /// Writes where the labels are that nothing in the document defines, of the references in the sections from one up to another, over the
    /// first ranges, as many as fit: `a` of `[a]`, `[a][]`, `![a]` and `[b][a]`, where brackets were left as text. The count is that of these
    /// references, and 0 if the code is not [`READ`].
    ///
    /// # Safety
    ///
    /// The document is [`NO_DOCUMENT`], or as a call of the library left it. The ranges share no byte with it, and are as many as the length
    /// says.
    pub fn limecove_document_undefined(
        document: *mut Document,
        from: usize,
        to: usize,
        labels: *mut ByteRange,
        labels_len: usize,
    ) -> Answer;

    /// Gives back the memory of a document, which is then not open. If it is not open, nothing changes.
    ///
    /// # Safety
    ///
    /// As of [`limecove_document_section_at`].
    pub fn limecove_document_close(document: *mut Document);

    /// Whether bytes may stand between the brackets of a label: 1 if they may, else 0.
    ///
    /// # Safety
    ///
    /// The library has this [`VERSION`]. There are as many bytes as the length says.
    pub fn limecove_is_label(bytes: *const u8, bytes_len: usize) -> u32;

    /// Writes the form of a label by which labels are compared over the first bytes of `out`, as many as fit. The count is how many bytes it
    /// has. If the code is not [`READ`], it is [`OUT_OF_MEMORY`], and nothing is written.
    ///
    /// # Safety
    ///
    /// The library has this [`VERSION`]. Label and `out` have as many bytes as the lengths say, and share none.
    pub fn limecove_normalized_label(
        label: *const u8,
        label_len: usize,
        out: *mut u8,
        out_len: usize,
    ) -> Answer;

    /// Writes back what it sees, so that a caller can compare its layout with the library's, field by field. `numbers` gets 1 to 9, a
    /// number for each field in order. The other two records get the numbers of the options: the machine as the name, the size as the
    /// line, the tab size as the column, the cut as the index, `deep` as `vs`, the constructs as `previous`, and 0 in all other
    /// fields. The answer has the code 1 and the count 3.
    ///
    /// # Safety
    ///
    /// The library has this [`VERSION`]. The pointers are to what their types say, and no two of them are the same.
    pub fn limecove_echo(
        options: *const Options,
        text: *const TextOptions,
        numbers: *mut Record,
        of_options: *mut Record,
        of_text: *mut Record,
    ) -> Answer;

    /// Writes back a range as [`limecove_echo`] does options: where it begins as the line, where it ends as the column, and 0 in all
    /// other fields.
    ///
    /// # Safety
    ///
    /// As of [`limecove_echo`].
    pub fn limecove_echo_range(range: *const ByteRange, of_range: *mut Record);

    /// Writes back options of HTML as [`limecove_echo`] does options: the size as the line, the tab size as the column, the constructs as
    /// `previous`, what they let through as `next`, and 0 in all other fields.
    ///
    /// # Safety
    ///
    /// As of [`limecove_echo`].
    pub fn limecove_echo_html(options: *const HtmlOptions, of_options: *mut Record);
}
