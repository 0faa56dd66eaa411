/* Limecove, the proved tokenizer engine, for C. Link liblimecove.a or liblimecove.so of a release, or out/liblimecove.a, which
 * bindings/build.sh makes.
 *
 * Ask for limecove_version() before the first call of another function: the others write to memory whose layout is that of their
 * version.
 *
 * The caller owns all memory that is passed. What a call takes for itself, it gives back before it returns; only an open reading keeps
 * memory. A call keeps no other state, so calls may run at the same time in several threads, each with readings of its own. A caller owes
 * what the types say: a pointer is to as many bytes or records as the length next to it says, and the records share no byte with the
 * document, the ranges, the options or the reading. The document, the ranges and the records may be NULL if their length is 0; the others
 * may not. malloc, realloc and free are those of the program. */
#ifndef LIMECOVE_H
#define LIMECOVE_H

#include <stddef.h>
#include <stdint.h>

#ifdef __cplusplus
extern "C" {
#endif

/* Before each function of the library. It is empty unless a program defines it, as by an attribute of visibility. */
#ifndef LIMECOVE_API
#define LIMECOVE_API
#endif

/* Before each function that this header defines. */
#if defined(__cplusplus) || (defined(__STDC_VERSION__) && __STDC_VERSION__ >= 199901L)
#define LIMECOVE_INLINE static inline
#elif defined(__GNUC__)
#define LIMECOVE_INLINE static __inline__
#else
#define LIMECOVE_INLINE static
#endif

/* The version of this header. limecove_version() and each answer have that of the library. It changes with each layout and meaning
 * that changes. It stays if a function, a code, a construct, a machine or a name is added, with the next number.
 *
 * Since version 4 LIMECOVE_BLOCK_QUOTE and the bits after it are needed for what was on without bits: a sum that is written out, as the 16383
 * that LIMECOVE_ALL_CONSTRUCTS was, has it off. limecove_default_options() choose LIMECOVE_DOCUMENT. LIMECOVE_ALL_CONSTRUCTS grows with each
 * construct that is added; LIMECOVE_COMMONMARK stays. */
#define LIMECOVE_VERSION 5

/* An index in a record's link that there is not. */
#define LIMECOVE_NO_INDEX ((size_t)-1)

/* How a call ended. If it is not LIMECOVE_READ, no record was written. Codes from LIMECOVE_OTHER_SIZE on say what the options or the ranges
 * have that there is not: the first of these, in this order. Ranges are looked at last, after the length. */
enum limecove_code {
    LIMECOVE_READ = 0,              /* the document was read */
    LIMECOVE_OUT_OF_MEMORY = 1,     /* the call ran out of memory */
    LIMECOVE_TOO_LONG = 2,          /* tab size times length, and one more, do not fit size_t */
    LIMECOVE_OTHER_SIZE = 3,        /* the options have another size */
    LIMECOVE_NO_SUCH_TAB_SIZE = 4,  /* the tab size is above 16 */
    LIMECOVE_NO_SUCH_CONSTRUCT = 5, /* a bit is set that is no construct's */
    LIMECOVE_NO_SUCH_MACHINE = 6,   /* there is no machine of this number */
    LIMECOVE_LINKS_NO_TEXT = 7,     /* deep is on for a machine that links no text */
    LIMECOVE_NO_SUCH_RANGES = 8,    /* the ranges cannot be read as one text, or the document has no such sections */
    LIMECOVE_NO_SUCH_BYTES = 9,     /* a range is not in the document, or a place is at none of its characters */
    LIMECOVE_NOT_OPEN = 10,         /* the document is not open */
    LIMECOVE_NO_SUCH_PERMISSION = 11 /* a bit is set of what HTML may let through that lets nothing through */
};

/* The constructs, as bits. */
enum limecove_construct {
    LIMECOVE_CODE_TEXT = 1,               /* code spans */
    LIMECOVE_AUTOLINK = 2,                /* autolinks */
    LIMECOVE_CHARACTER_ESCAPE = 4,        /* backslash escapes */
    LIMECOVE_ATTENTION = 8,               /* emphasis */
    LIMECOVE_CHARACTER_REFERENCE = 16,    /* character references */
    LIMECOVE_HARD_BREAK_ESCAPE = 32,      /* hard breaks by a backslash */
    LIMECOVE_HARD_BREAK_TRAILING = 64,    /* hard breaks by spaces */
    LIMECOVE_HTML_TEXT = 128,             /* raw HTML in texts */
    LIMECOVE_CODE_FENCED = 256,           /* fenced code */
    LIMECOVE_CODE_INDENTED = 512,         /* indented code */
    LIMECOVE_HEADING_ATX = 1024,          /* ATX headings */
    LIMECOVE_HEADING_SETEXT = 2048,       /* setext headings */
    LIMECOVE_HTML_FLOW = 4096,            /* HTML blocks */
    LIMECOVE_THEMATIC_BREAK = 8192,       /* thematic breaks */
    LIMECOVE_BLOCK_QUOTE = 16384,         /* block quotes */
    LIMECOVE_LIST_ITEM = 32768,           /* list items */
    LIMECOVE_LABEL_START_LINK = 65536,    /* starts of link labels */
    LIMECOVE_LABEL_START_IMAGE = 131072,  /* starts of image labels */
    LIMECOVE_LABEL_END = 262144,          /* ends of labels: without it there are no links and no images */
    LIMECOVE_DEFINITION = 524288,         /* link reference definitions */
    LIMECOVE_COMMONMARK = 1048575,        /* all of these: the constructs of CommonMark */
    LIMECOVE_GFM_STRIKETHROUGH = 1048576, /* strikethrough of GFM, which is on only if it is asked for */
    LIMECOVE_ALL_CONSTRUCTS = 2097151,    /* all that each call takes */
    /* of GFM, for limecove_html and limecove_document_new, and for limecove_read and limecove_open by LIMECOVE_DOCUMENT with deep: elsewhere,
     * as for texts, there is no such construct. Off unless it is asked for */
    LIMECOVE_GFM_AUTOLINK_LITERAL = 2097152, /* autolink literals */
    LIMECOVE_GFM_TASK_LIST_ITEM = 4194304,   /* checks of task list items */
    LIMECOVE_GFM_TABLE = 8388608,            /* tables */
    LIMECOVE_GFM_FOOTNOTE_DEFINITION = 16777216,  /* definitions of footnotes */
    LIMECOVE_GFM_LABEL_START_FOOTNOTE = 33554432, /* calls of footnotes */
    LIMECOVE_HTML_CONSTRUCTS = 67108863,          /* all of these and those before */
    /* no construct, and taken where these are: one tilde is text, and two strike through */
    LIMECOVE_GFM_STRIKETHROUGH_DOUBLE_TILDE = 67108864
};

/* What HTML may let through, as bits. If none of LIMECOVE_ALLOW_ALL is set, the HTML is safe, whatever the document is. */
enum limecove_permission {
    LIMECOVE_ALLOW_DANGEROUS_HTML = 1,     /* HTML in the document is kept as HTML; without it, it is shown as text */
    LIMECOVE_ALLOW_DANGEROUS_PROTOCOL = 2, /* links and images have addresses of any protocol */
    LIMECOVE_ALLOW_ANY_IMG_SRC = 4,        /* images alone have addresses of any protocol */
    LIMECOVE_ALLOW_ALL = 7,
    LIMECOVE_GFM_TAGFILTER = 8 /* in HTML that is kept, tags that GFM disallows are text: no protection */
};

/* Whether a span begins or ends. */
enum limecove_kind {
    LIMECOVE_ENTER = 0,
    LIMECOVE_EXIT = 1
};

/* What a chain is read as. */
enum limecove_content {
    LIMECOVE_NOT_LINKED = 0,
    LIMECOVE_CONTENT_FLOW = 1,
    LIMECOVE_CONTENT_CONTENT = 2,
    LIMECOVE_CONTENT_STRING = 3,
    LIMECOVE_CONTENT_TEXT = 4
};

/* written by names.py: begin */
/* The machines that read: LIMECOVE_DOCUMENT whole documents; LIMECOVE_FLOW the same without block quotes, lists and definitions;
 * LIMECOVE_TEXT paragraphs with code spans, autolinks and escapes alone; LIMECOVE_PARAGRAPHS paragraphs of data. */
enum limecove_machine {
    LIMECOVE_PARAGRAPHS = 1,
    LIMECOVE_TEXT = 6,
    LIMECOVE_FLOW = 7,
    LIMECOVE_DOCUMENT = 8
};

/* More machines, for tests of the library alone: what they read is no Markdown. */
enum limecove_test_machine {
    LIMECOVE_LINES = 0,
    LIMECOVE_PEEK = 2,
    LIMECOVE_DEEP = 3,
    LIMECOVE_BACK = 4,
    LIMECOVE_SAVE = 5
};

/* What a span is. */
enum limecove_name {
    LIMECOVE_NAME_ATTENTION_SEQUENCE = 0,
    LIMECOVE_NAME_AUTOLINK = 1,
    LIMECOVE_NAME_AUTOLINK_EMAIL = 2,
    LIMECOVE_NAME_AUTOLINK_MARKER = 3,
    LIMECOVE_NAME_AUTOLINK_PROTOCOL = 4,
    LIMECOVE_NAME_BLANK_LINE_ENDING = 5,
    LIMECOVE_NAME_BLOCK_QUOTE = 6,
    LIMECOVE_NAME_BLOCK_QUOTE_MARKER = 7,
    LIMECOVE_NAME_BLOCK_QUOTE_PREFIX = 8,
    LIMECOVE_NAME_BYTE_ORDER_MARK = 9,
    LIMECOVE_NAME_CHARACTER_ESCAPE = 10,
    LIMECOVE_NAME_CHARACTER_ESCAPE_MARKER = 11,
    LIMECOVE_NAME_CHARACTER_ESCAPE_VALUE = 12,
    LIMECOVE_NAME_CHARACTER_REFERENCE = 13,
    LIMECOVE_NAME_CHARACTER_REFERENCE_MARKER = 14,
    LIMECOVE_NAME_CHARACTER_REFERENCE_MARKER_HEXADECIMAL = 15,
    LIMECOVE_NAME_CHARACTER_REFERENCE_MARKER_NUMERIC = 16,
    LIMECOVE_NAME_CHARACTER_REFERENCE_MARKER_SEMI = 17,
    LIMECOVE_NAME_CHARACTER_REFERENCE_VALUE = 18,
    LIMECOVE_NAME_CODE_FENCED = 19,
    LIMECOVE_NAME_CODE_FENCED_FENCE = 20,
    LIMECOVE_NAME_CODE_FENCED_FENCE_INFO = 21,
    LIMECOVE_NAME_CODE_FENCED_FENCE_META = 22,
    LIMECOVE_NAME_CODE_FENCED_FENCE_SEQUENCE = 23,
    LIMECOVE_NAME_CODE_FLOW_CHUNK = 24,
    LIMECOVE_NAME_CODE_INDENTED = 25,
    LIMECOVE_NAME_CODE_TEXT = 26,
    LIMECOVE_NAME_CODE_TEXT_DATA = 27,
    LIMECOVE_NAME_CODE_TEXT_SEQUENCE = 28,
    LIMECOVE_NAME_CONTENT = 29,
    LIMECOVE_NAME_DATA = 30,
    LIMECOVE_NAME_DEFINITION = 31,
    LIMECOVE_NAME_DEFINITION_DESTINATION = 32,
    LIMECOVE_NAME_DEFINITION_DESTINATION_LITERAL = 33,
    LIMECOVE_NAME_DEFINITION_DESTINATION_LITERAL_MARKER = 34,
    LIMECOVE_NAME_DEFINITION_DESTINATION_RAW = 35,
    LIMECOVE_NAME_DEFINITION_DESTINATION_STRING = 36,
    LIMECOVE_NAME_DEFINITION_LABEL = 37,
    LIMECOVE_NAME_DEFINITION_LABEL_MARKER = 38,
    LIMECOVE_NAME_DEFINITION_LABEL_STRING = 39,
    LIMECOVE_NAME_DEFINITION_MARKER = 40,
    LIMECOVE_NAME_DEFINITION_TITLE = 41,
    LIMECOVE_NAME_DEFINITION_TITLE_MARKER = 42,
    LIMECOVE_NAME_DEFINITION_TITLE_STRING = 43,
    LIMECOVE_NAME_EMPHASIS = 44,
    LIMECOVE_NAME_EMPHASIS_SEQUENCE = 45,
    LIMECOVE_NAME_EMPHASIS_TEXT = 46,
    LIMECOVE_NAME_FRONTMATTER = 47,
    LIMECOVE_NAME_FRONTMATTER_CHUNK = 48,
    LIMECOVE_NAME_FRONTMATTER_FENCE = 49,
    LIMECOVE_NAME_FRONTMATTER_SEQUENCE = 50,
    LIMECOVE_NAME_GFM_AUTOLINK_LITERAL_EMAIL = 51,
    LIMECOVE_NAME_GFM_AUTOLINK_LITERAL_MAILTO = 52,
    LIMECOVE_NAME_GFM_AUTOLINK_LITERAL_PROTOCOL = 53,
    LIMECOVE_NAME_GFM_AUTOLINK_LITERAL_WWW = 54,
    LIMECOVE_NAME_GFM_AUTOLINK_LITERAL_XMPP = 55,
    LIMECOVE_NAME_GFM_FOOTNOTE_CALL = 56,
    LIMECOVE_NAME_GFM_FOOTNOTE_CALL_LABEL = 57,
    LIMECOVE_NAME_GFM_FOOTNOTE_CALL_MARKER = 58,
    LIMECOVE_NAME_GFM_FOOTNOTE_DEFINITION = 59,
    LIMECOVE_NAME_GFM_FOOTNOTE_DEFINITION_PREFIX = 60,
    LIMECOVE_NAME_GFM_FOOTNOTE_DEFINITION_LABEL = 61,
    LIMECOVE_NAME_GFM_FOOTNOTE_DEFINITION_LABEL_MARKER = 62,
    LIMECOVE_NAME_GFM_FOOTNOTE_DEFINITION_LABEL_STRING = 63,
    LIMECOVE_NAME_GFM_FOOTNOTE_DEFINITION_MARKER = 64,
    LIMECOVE_NAME_GFM_STRIKETHROUGH = 65,
    LIMECOVE_NAME_GFM_STRIKETHROUGH_SEQUENCE = 66,
    LIMECOVE_NAME_GFM_STRIKETHROUGH_TEXT = 67,
    LIMECOVE_NAME_GFM_TABLE = 68,
    LIMECOVE_NAME_GFM_TABLE_BODY = 69,
    LIMECOVE_NAME_GFM_TABLE_CELL = 70,
    LIMECOVE_NAME_GFM_TABLE_CELL_TEXT = 71,
    LIMECOVE_NAME_GFM_TABLE_CELL_DIVIDER = 72,
    LIMECOVE_NAME_GFM_TABLE_DELIMITER_ROW = 73,
    LIMECOVE_NAME_GFM_TABLE_DELIMITER_MARKER = 74,
    LIMECOVE_NAME_GFM_TABLE_DELIMITER_CELL = 75,
    LIMECOVE_NAME_GFM_TABLE_DELIMITER_CELL_VALUE = 76,
    LIMECOVE_NAME_GFM_TABLE_DELIMITER_FILLER = 77,
    LIMECOVE_NAME_GFM_TABLE_HEAD = 78,
    LIMECOVE_NAME_GFM_TABLE_ROW = 79,
    LIMECOVE_NAME_GFM_TASK_LIST_ITEM_CHECK = 80,
    LIMECOVE_NAME_GFM_TASK_LIST_ITEM_MARKER = 81,
    LIMECOVE_NAME_GFM_TASK_LIST_ITEM_VALUE_CHECKED = 82,
    LIMECOVE_NAME_GFM_TASK_LIST_ITEM_VALUE_UNCHECKED = 83,
    LIMECOVE_NAME_HARD_BREAK_ESCAPE = 84,
    LIMECOVE_NAME_HARD_BREAK_TRAILING = 85,
    LIMECOVE_NAME_HEADING_ATX = 86,
    LIMECOVE_NAME_HEADING_ATX_SEQUENCE = 87,
    LIMECOVE_NAME_HEADING_ATX_TEXT = 88,
    LIMECOVE_NAME_HEADING_SETEXT = 89,
    LIMECOVE_NAME_HEADING_SETEXT_TEXT = 90,
    LIMECOVE_NAME_HEADING_SETEXT_UNDERLINE = 91,
    LIMECOVE_NAME_HEADING_SETEXT_UNDERLINE_SEQUENCE = 92,
    LIMECOVE_NAME_HTML_FLOW = 93,
    LIMECOVE_NAME_HTML_FLOW_DATA = 94,
    LIMECOVE_NAME_HTML_TEXT = 95,
    LIMECOVE_NAME_HTML_TEXT_DATA = 96,
    LIMECOVE_NAME_IMAGE = 97,
    LIMECOVE_NAME_LABEL = 98,
    LIMECOVE_NAME_LABEL_END = 99,
    LIMECOVE_NAME_LABEL_IMAGE = 100,
    LIMECOVE_NAME_LABEL_IMAGE_MARKER = 101,
    LIMECOVE_NAME_LABEL_LINK = 102,
    LIMECOVE_NAME_LABEL_MARKER = 103,
    LIMECOVE_NAME_LABEL_TEXT = 104,
    LIMECOVE_NAME_LINE_ENDING = 105,
    LIMECOVE_NAME_LINK = 106,
    LIMECOVE_NAME_LIST_ITEM = 107,
    LIMECOVE_NAME_LIST_ITEM_MARKER = 108,
    LIMECOVE_NAME_LIST_ITEM_PREFIX = 109,
    LIMECOVE_NAME_LIST_ITEM_VALUE = 110,
    LIMECOVE_NAME_LIST_ORDERED = 111,
    LIMECOVE_NAME_LIST_UNORDERED = 112,
    LIMECOVE_NAME_MATH_FLOW = 113,
    LIMECOVE_NAME_MATH_FLOW_FENCE = 114,
    LIMECOVE_NAME_MATH_FLOW_FENCE_META = 115,
    LIMECOVE_NAME_MATH_FLOW_FENCE_SEQUENCE = 116,
    LIMECOVE_NAME_MATH_FLOW_CHUNK = 117,
    LIMECOVE_NAME_MATH_TEXT = 118,
    LIMECOVE_NAME_MATH_TEXT_DATA = 119,
    LIMECOVE_NAME_MATH_TEXT_SEQUENCE = 120,
    LIMECOVE_NAME_PARAGRAPH = 121,
    LIMECOVE_NAME_REFERENCE = 122,
    LIMECOVE_NAME_REFERENCE_MARKER = 123,
    LIMECOVE_NAME_REFERENCE_STRING = 124,
    LIMECOVE_NAME_RESOURCE = 125,
    LIMECOVE_NAME_RESOURCE_DESTINATION = 126,
    LIMECOVE_NAME_RESOURCE_DESTINATION_LITERAL = 127,
    LIMECOVE_NAME_RESOURCE_DESTINATION_LITERAL_MARKER = 128,
    LIMECOVE_NAME_RESOURCE_DESTINATION_RAW = 129,
    LIMECOVE_NAME_RESOURCE_DESTINATION_STRING = 130,
    LIMECOVE_NAME_RESOURCE_MARKER = 131,
    LIMECOVE_NAME_RESOURCE_TITLE = 132,
    LIMECOVE_NAME_RESOURCE_TITLE_MARKER = 133,
    LIMECOVE_NAME_RESOURCE_TITLE_STRING = 134,
    LIMECOVE_NAME_SPACE_OR_TAB = 135,
    LIMECOVE_NAME_STRONG = 136,
    LIMECOVE_NAME_STRONG_SEQUENCE = 137,
    LIMECOVE_NAME_STRONG_TEXT = 138,
    LIMECOVE_NAME_THEMATIC_BREAK = 139,
    LIMECOVE_NAME_THEMATIC_BREAK_SEQUENCE = 140,
    LIMECOVE_NAME_LINE_PREFIX = 141
};

/* X(NAME, "Name", is_void) for each name, in the order of their numbers: define X, and use it. */
#define LIMECOVE_EACH_NAME(X) \
    X(ATTENTION_SEQUENCE, "AttentionSequence", 1) \
    X(AUTOLINK, "Autolink", 0) \
    X(AUTOLINK_EMAIL, "AutolinkEmail", 1) \
    X(AUTOLINK_MARKER, "AutolinkMarker", 1) \
    X(AUTOLINK_PROTOCOL, "AutolinkProtocol", 1) \
    X(BLANK_LINE_ENDING, "BlankLineEnding", 1) \
    X(BLOCK_QUOTE, "BlockQuote", 0) \
    X(BLOCK_QUOTE_MARKER, "BlockQuoteMarker", 1) \
    X(BLOCK_QUOTE_PREFIX, "BlockQuotePrefix", 0) \
    X(BYTE_ORDER_MARK, "ByteOrderMark", 1) \
    X(CHARACTER_ESCAPE, "CharacterEscape", 0) \
    X(CHARACTER_ESCAPE_MARKER, "CharacterEscapeMarker", 1) \
    X(CHARACTER_ESCAPE_VALUE, "CharacterEscapeValue", 1) \
    X(CHARACTER_REFERENCE, "CharacterReference", 0) \
    X(CHARACTER_REFERENCE_MARKER, "CharacterReferenceMarker", 1) \
    X(CHARACTER_REFERENCE_MARKER_HEXADECIMAL, "CharacterReferenceMarkerHexadecimal", 1) \
    X(CHARACTER_REFERENCE_MARKER_NUMERIC, "CharacterReferenceMarkerNumeric", 1) \
    X(CHARACTER_REFERENCE_MARKER_SEMI, "CharacterReferenceMarkerSemi", 1) \
    X(CHARACTER_REFERENCE_VALUE, "CharacterReferenceValue", 1) \
    X(CODE_FENCED, "CodeFenced", 0) \
    X(CODE_FENCED_FENCE, "CodeFencedFence", 0) \
    X(CODE_FENCED_FENCE_INFO, "CodeFencedFenceInfo", 0) \
    X(CODE_FENCED_FENCE_META, "CodeFencedFenceMeta", 0) \
    X(CODE_FENCED_FENCE_SEQUENCE, "CodeFencedFenceSequence", 1) \
    X(CODE_FLOW_CHUNK, "CodeFlowChunk", 1) \
    X(CODE_INDENTED, "CodeIndented", 0) \
    X(CODE_TEXT, "CodeText", 0) \
    X(CODE_TEXT_DATA, "CodeTextData", 1) \
    X(CODE_TEXT_SEQUENCE, "CodeTextSequence", 1) \
    X(CONTENT, "Content", 0) \
    X(DATA, "Data", 1) \
    X(DEFINITION, "Definition", 0) \
    X(DEFINITION_DESTINATION, "DefinitionDestination", 0) \
    X(DEFINITION_DESTINATION_LITERAL, "DefinitionDestinationLiteral", 0) \
    X(DEFINITION_DESTINATION_LITERAL_MARKER, "DefinitionDestinationLiteralMarker", 1) \
    X(DEFINITION_DESTINATION_RAW, "DefinitionDestinationRaw", 0) \
    X(DEFINITION_DESTINATION_STRING, "DefinitionDestinationString", 0) \
    X(DEFINITION_LABEL, "DefinitionLabel", 0) \
    X(DEFINITION_LABEL_MARKER, "DefinitionLabelMarker", 1) \
    X(DEFINITION_LABEL_STRING, "DefinitionLabelString", 0) \
    X(DEFINITION_MARKER, "DefinitionMarker", 1) \
    X(DEFINITION_TITLE, "DefinitionTitle", 0) \
    X(DEFINITION_TITLE_MARKER, "DefinitionTitleMarker", 1) \
    X(DEFINITION_TITLE_STRING, "DefinitionTitleString", 0) \
    X(EMPHASIS, "Emphasis", 0) \
    X(EMPHASIS_SEQUENCE, "EmphasisSequence", 1) \
    X(EMPHASIS_TEXT, "EmphasisText", 0) \
    X(FRONTMATTER, "Frontmatter", 0) \
    X(FRONTMATTER_CHUNK, "FrontmatterChunk", 1) \
    X(FRONTMATTER_FENCE, "FrontmatterFence", 0) \
    X(FRONTMATTER_SEQUENCE, "FrontmatterSequence", 1) \
    X(GFM_AUTOLINK_LITERAL_EMAIL, "GfmAutolinkLiteralEmail", 1) \
    X(GFM_AUTOLINK_LITERAL_MAILTO, "GfmAutolinkLiteralMailto", 0) \
    X(GFM_AUTOLINK_LITERAL_PROTOCOL, "GfmAutolinkLiteralProtocol", 1) \
    X(GFM_AUTOLINK_LITERAL_WWW, "GfmAutolinkLiteralWww", 1) \
    X(GFM_AUTOLINK_LITERAL_XMPP, "GfmAutolinkLiteralXmpp", 0) \
    X(GFM_FOOTNOTE_CALL, "GfmFootnoteCall", 0) \
    X(GFM_FOOTNOTE_CALL_LABEL, "GfmFootnoteCallLabel", 0) \
    X(GFM_FOOTNOTE_CALL_MARKER, "GfmFootnoteCallMarker", 1) \
    X(GFM_FOOTNOTE_DEFINITION, "GfmFootnoteDefinition", 0) \
    X(GFM_FOOTNOTE_DEFINITION_PREFIX, "GfmFootnoteDefinitionPrefix", 0) \
    X(GFM_FOOTNOTE_DEFINITION_LABEL, "GfmFootnoteDefinitionLabel", 0) \
    X(GFM_FOOTNOTE_DEFINITION_LABEL_MARKER, "GfmFootnoteDefinitionLabelMarker", 1) \
    X(GFM_FOOTNOTE_DEFINITION_LABEL_STRING, "GfmFootnoteDefinitionLabelString", 0) \
    X(GFM_FOOTNOTE_DEFINITION_MARKER, "GfmFootnoteDefinitionMarker", 1) \
    X(GFM_STRIKETHROUGH, "GfmStrikethrough", 0) \
    X(GFM_STRIKETHROUGH_SEQUENCE, "GfmStrikethroughSequence", 1) \
    X(GFM_STRIKETHROUGH_TEXT, "GfmStrikethroughText", 0) \
    X(GFM_TABLE, "GfmTable", 0) \
    X(GFM_TABLE_BODY, "GfmTableBody", 0) \
    X(GFM_TABLE_CELL, "GfmTableCell", 0) \
    X(GFM_TABLE_CELL_TEXT, "GfmTableCellText", 0) \
    X(GFM_TABLE_CELL_DIVIDER, "GfmTableCellDivider", 1) \
    X(GFM_TABLE_DELIMITER_ROW, "GfmTableDelimiterRow", 0) \
    X(GFM_TABLE_DELIMITER_MARKER, "GfmTableDelimiterMarker", 1) \
    X(GFM_TABLE_DELIMITER_CELL, "GfmTableDelimiterCell", 0) \
    X(GFM_TABLE_DELIMITER_CELL_VALUE, "GfmTableDelimiterCellValue", 0) \
    X(GFM_TABLE_DELIMITER_FILLER, "GfmTableDelimiterFiller", 1) \
    X(GFM_TABLE_HEAD, "GfmTableHead", 0) \
    X(GFM_TABLE_ROW, "GfmTableRow", 0) \
    X(GFM_TASK_LIST_ITEM_CHECK, "GfmTaskListItemCheck", 0) \
    X(GFM_TASK_LIST_ITEM_MARKER, "GfmTaskListItemMarker", 1) \
    X(GFM_TASK_LIST_ITEM_VALUE_CHECKED, "GfmTaskListItemValueChecked", 1) \
    X(GFM_TASK_LIST_ITEM_VALUE_UNCHECKED, "GfmTaskListItemValueUnchecked", 1) \
    X(HARD_BREAK_ESCAPE, "HardBreakEscape", 1) \
    X(HARD_BREAK_TRAILING, "HardBreakTrailing", 1) \
    X(HEADING_ATX, "HeadingAtx", 0) \
    X(HEADING_ATX_SEQUENCE, "HeadingAtxSequence", 1) \
    X(HEADING_ATX_TEXT, "HeadingAtxText", 0) \
    X(HEADING_SETEXT, "HeadingSetext", 0) \
    X(HEADING_SETEXT_TEXT, "HeadingSetextText", 0) \
    X(HEADING_SETEXT_UNDERLINE, "HeadingSetextUnderline", 0) \
    X(HEADING_SETEXT_UNDERLINE_SEQUENCE, "HeadingSetextUnderlineSequence", 1) \
    X(HTML_FLOW, "HtmlFlow", 0) \
    X(HTML_FLOW_DATA, "HtmlFlowData", 1) \
    X(HTML_TEXT, "HtmlText", 0) \
    X(HTML_TEXT_DATA, "HtmlTextData", 1) \
    X(IMAGE, "Image", 0) \
    X(LABEL, "Label", 0) \
    X(LABEL_END, "LabelEnd", 0) \
    X(LABEL_IMAGE, "LabelImage", 0) \
    X(LABEL_IMAGE_MARKER, "LabelImageMarker", 1) \
    X(LABEL_LINK, "LabelLink", 0) \
    X(LABEL_MARKER, "LabelMarker", 1) \
    X(LABEL_TEXT, "LabelText", 0) \
    X(LINE_ENDING, "LineEnding", 1) \
    X(LINK, "Link", 0) \
    X(LIST_ITEM, "ListItem", 0) \
    X(LIST_ITEM_MARKER, "ListItemMarker", 1) \
    X(LIST_ITEM_PREFIX, "ListItemPrefix", 0) \
    X(LIST_ITEM_VALUE, "ListItemValue", 1) \
    X(LIST_ORDERED, "ListOrdered", 0) \
    X(LIST_UNORDERED, "ListUnordered", 0) \
    X(MATH_FLOW, "MathFlow", 0) \
    X(MATH_FLOW_FENCE, "MathFlowFence", 0) \
    X(MATH_FLOW_FENCE_META, "MathFlowFenceMeta", 0) \
    X(MATH_FLOW_FENCE_SEQUENCE, "MathFlowFenceSequence", 1) \
    X(MATH_FLOW_CHUNK, "MathFlowChunk", 1) \
    X(MATH_TEXT, "MathText", 0) \
    X(MATH_TEXT_DATA, "MathTextData", 1) \
    X(MATH_TEXT_SEQUENCE, "MathTextSequence", 1) \
    X(PARAGRAPH, "Paragraph", 0) \
    X(REFERENCE, "Reference", 0) \
    X(REFERENCE_MARKER, "ReferenceMarker", 1) \
    X(REFERENCE_STRING, "ReferenceString", 0) \
    X(RESOURCE, "Resource", 0) \
    X(RESOURCE_DESTINATION, "ResourceDestination", 0) \
    X(RESOURCE_DESTINATION_LITERAL, "ResourceDestinationLiteral", 0) \
    X(RESOURCE_DESTINATION_LITERAL_MARKER, "ResourceDestinationLiteralMarker", 0) \
    X(RESOURCE_DESTINATION_RAW, "ResourceDestinationRaw", 0) \
    X(RESOURCE_DESTINATION_STRING, "ResourceDestinationString", 0) \
    X(RESOURCE_MARKER, "ResourceMarker", 1) \
    X(RESOURCE_TITLE, "ResourceTitle", 0) \
    X(RESOURCE_TITLE_MARKER, "ResourceTitleMarker", 1) \
    X(RESOURCE_TITLE_STRING, "ResourceTitleString", 0) \
    X(SPACE_OR_TAB, "SpaceOrTab", 1) \
    X(STRONG, "Strong", 0) \
    X(STRONG_SEQUENCE, "StrongSequence", 1) \
    X(STRONG_TEXT, "StrongText", 0) \
    X(THEMATIC_BREAK, "ThematicBreak", 0) \
    X(THEMATIC_BREAK_SEQUENCE, "ThematicBreakSequence", 1) \
    X(LINE_PREFIX, "LinePrefix", 0)
/* written by names.py: end */

/* How text is read. Later versions of the library take options of this size too. */
struct limecove_text_options {
    size_t size;         /* sizeof(struct limecove_text_options) */
    size_t tab_size;     /* how many columns tab stops are apart, from 1 to 16; 0 is 4 */
    uint64_t constructs; /* the sum of the bits of limecove_construct that are on */
};

/* How a document is read. Later versions of the library take options of this size too. */
struct limecove_options {
    size_t size;         /* sizeof(struct limecove_options) */
    size_t tab_size;     /* how many columns tab stops are apart, from 1 to 16; 0 is 4 */
    uint64_t constructs; /* the sum of the bits of limecove_construct that are on */
    size_t cut;          /* after how many virtual bytes the document is cut each time, which changes no event; 0 for never */
    uint32_t machine;    /* of limecove_machine, or of limecove_test_machine */
    uint32_t deep;       /* if it is not 0, the chunks that LIMECOVE_PARAGRAPHS, LIMECOVE_TEXT, LIMECOVE_FLOW or LIMECOVE_DOCUMENT links are read too */
};

/* How a document is read, and what its HTML may let through. Later versions of the library take options of this size too. */
struct limecove_html_options {
    size_t size;         /* sizeof(struct limecove_html_options) */
    size_t tab_size;     /* how many columns tab stops are apart, from 1 to 16; 0 is 4 */
    uint64_t constructs; /* the sum of the bits of limecove_construct that are on */
    uint64_t allow;      /* the sum of the bits of limecove_permission that are set; if it has none of LIMECOVE_ALLOW_ALL, the HTML is safe */
};

/* A range of a document. Ranges can be read as one text if none runs backwards or past the end, and each begins where the one before it
 * ends; or that one ends at the beginning of a line, and the next begins later in the line, as behind a quote mark. The first begins
 * anywhere. A CR LF is read where its LF is. */
struct limecove_byte_range {
    size_t from; /* index of its first byte */
    size_t to;   /* index of the byte behind its last one */
};

/* Where a span begins or ends. */
struct limecove_record {
    uint16_t kind;    /* of limecove_kind */
    uint16_t content; /* of limecove_content: what the event's chain is read as, if it is linked */
    uint32_t name;    /* of limecove_name: what the span is */
    size_t line;      /* from 1 */
    size_t column;    /* virtual column in the line, from 1 */
    size_t index;     /* byte index into the document, from 0 */
    size_t vs;        /* number of the virtual byte of a tab, from 0; 0 elsewhere */
    size_t previous;  /* index of the enter before in the chain, or LIMECOVE_NO_INDEX */
    size_t next;      /* index of the enter after in the chain, or LIMECOVE_NO_INDEX */
};

/* How a call ended, and how many there are of what it writes: events, or bytes. */
struct limecove_answer {
    uint32_t code;    /* of limecove_code */
    uint32_t version; /* LIMECOVE_VERSION of the library */
    size_t count;     /* events of the document, or bytes of its HTML, also if there are more than fit; 0 if it was not read */
};

/* A document that was read, with its events in the library's memory. It begins as LIMECOVE_NO_READING, and only the library changes it. One
 * thread at a time uses it, and no copy of it is used beside it. */
struct limecove_reading {
    size_t is_open; /* 1 if it is open, 0 if it is not */
    void *list;     /* the events, if it is open */
};

/* A reading that is not open: struct limecove_reading reading = LIMECOVE_NO_READING; */
#define LIMECOVE_NO_READING {0, NULL}

/* A document that can be edited, in the library's memory. It begins as LIMECOVE_NO_DOCUMENT, and only the library changes it. One thread at
 * a time uses it, and no copy of it is used beside it. It is cut into sections, which are numbered from 0, and an edit reads only some. */
struct limecove_document {
    size_t is_open; /* 1 if it is open, 0 if it is not */
    void *held;     /* the document, if it is open */
};

/* A document that is not open: struct limecove_document document = LIMECOVE_NO_DOCUMENT; */
#define LIMECOVE_NO_DOCUMENT {0, NULL}

/* What an edit changed. Sections in front of the replaced ones and behind them have the bytes that they had. */
struct limecove_changed {
    size_t from;   /* the first section that was replaced, and the first new one */
    size_t old_to; /* the section behind the last that was replaced, as sections were numbered before */
    size_t new_to; /* the section behind the last new one, as they are numbered now */
    size_t start;  /* where the new sections start: a byte index into the document as it is now */
    size_t end;    /* where they end: the index of the byte behind them */
    size_t others; /* of how many other sections something is new: limecove_document_others says which */
};

/* Why a section is named that an edit did not replace. */
enum limecove_why {
    LIMECOVE_WHY_EVENTS = 0, /* it has other events than before, since a label came or went */
    LIMECOVE_WHY_TARGETS = 1 /* it has the events that it had, and a link or an image in it leads elsewhere */
};

/* A section that an edit did not replace, and of which something is new. */
struct limecove_named {
    size_t section; /* its number, as sections are numbered now */
    uint32_t why;   /* LIMECOVE_WHY_EVENTS or LIMECOVE_WHY_TARGETS */
};

/* A place in a document as editors ask for it. */
struct limecove_place {
    size_t line;      /* from 0 */
    size_t character; /* the units of the line in front of the place: bytes of UTF-8, or units of UTF-16 */
};

/* A definition in a document. */
struct limecove_defined {
    size_t section; /* the section in which it begins */
    size_t from;    /* where it begins: a byte index into the document */
    size_t to;      /* where it ends: the index of the byte behind it */
};

/* CommonMark's text, and tab stops at every 4 columns. */
LIMECOVE_INLINE struct limecove_text_options limecove_default_text_options(void) {
    struct limecove_text_options options;
    options.size = sizeof options;
    options.tab_size = 4;
    options.constructs = LIMECOVE_COMMONMARK;
    return options;
}

/* The whole document, with all of CommonMark, and tab stops at every 4 columns. */
LIMECOVE_INLINE struct limecove_options limecove_default_options(void) {
    struct limecove_options options;
    options.size = sizeof options;
    options.tab_size = 4;
    options.constructs = LIMECOVE_COMMONMARK;
    options.cut = 0;
    options.machine = LIMECOVE_DOCUMENT;
    options.deep = 1;
    return options;
}

/* Safe HTML of the whole document, with all of CommonMark, and tab stops at every 4 columns. */
LIMECOVE_INLINE struct limecove_html_options limecove_default_html_options(void) {
    struct limecove_html_options options;
    options.size = sizeof options;
    options.tab_size = 4;
    options.constructs = LIMECOVE_COMMONMARK;
    options.allow = 0;
    return options;
}

/* A name as text, as "CodeText". NULL if there is no name of this number. */
LIMECOVE_INLINE const char *limecove_name_text(uint32_t name) {
#define LIMECOVE_TEXT_OF(upper, text, is_void) text,
    static const char *const texts[] = {LIMECOVE_EACH_NAME(LIMECOVE_TEXT_OF) NULL};
#undef LIMECOVE_TEXT_OF
    return name < sizeof texts / sizeof *texts ? texts[name] : NULL;
}

/* Whether a name is void: a span of it holds no other. 0 if there is no name of this number. */
LIMECOVE_INLINE int limecove_name_is_void(uint32_t name) {
#define LIMECOVE_VOID_OF(upper, text, is_void) is_void,
    static const unsigned char voids[] = {LIMECOVE_EACH_NAME(LIMECOVE_VOID_OF) 0};
#undef LIMECOVE_VOID_OF
    return name < sizeof voids ? voids[name] : 0;
}

/* A code as text, as "out of memory". NULL if there is no code of this number. */
LIMECOVE_INLINE const char *limecove_code_text(uint32_t code) {
    static const char *const texts[] = {"read", "out of memory", "document too long", "options of another size",
                                        "no such tab size", "no such construct", "no such machine", "the machine links no text",
                                        "the ranges are no text", "no such bytes", "the document is not open", "no such permission"};
    return code < sizeof texts / sizeof *texts ? texts[code] : NULL;
}

/* The version of the library. If it is not LIMECOVE_VERSION, no other function may be called. */
LIMECOVE_API uint32_t limecove_version(void);

/* Reads a document. Writes the first events over the first records, as many as fit, and nothing else. By LIMECOVE_DOCUMENT with deep it takes
 * LIMECOVE_HTML_CONSTRUCTS, and so does limecove_open. */
LIMECOVE_API struct limecove_answer limecove_read(const uint8_t *document, size_t document_len, const struct limecove_options *options,
                                                  struct limecove_record *records, size_t records_len);

/* Reads a document as text, without paragraphs. Writes records as limecove_read does. */
LIMECOVE_API struct limecove_answer limecove_read_text(const uint8_t *document, size_t document_len,
                                                       const struct limecove_text_options *options, struct limecove_record *records,
                                                       size_t records_len);

/* Reads a document. If the code is LIMECOVE_READ, the reading is open, and has the events; else it is not open. The reading is not open
 * before, as its memory would be lost. */
LIMECOVE_API struct limecove_answer limecove_open(const uint8_t *document, size_t document_len, const struct limecove_options *options,
                                                  struct limecove_reading *reading);

/* Reads a document as text, without paragraphs, as limecove_open does. */
LIMECOVE_API struct limecove_answer limecove_open_text(const uint8_t *document, size_t document_len,
                                                       const struct limecove_text_options *options, struct limecove_reading *reading);

/* Reads ranges of a document as one text. What is between them is never read. The places of events are those in the whole document. Writes
 * records as limecove_read does. */
LIMECOVE_API struct limecove_answer limecove_read_text_in(const uint8_t *document, size_t document_len,
                                                          const struct limecove_byte_range *ranges, size_t ranges_len,
                                                          const struct limecove_text_options *options, struct limecove_record *records,
                                                          size_t records_len);

/* Reads ranges of a document as one text, as limecove_read_text_in and limecove_open do. */
LIMECOVE_API struct limecove_answer limecove_open_text_in(const uint8_t *document, size_t document_len,
                                                          const struct limecove_byte_range *ranges, size_t ranges_len,
                                                          const struct limecove_text_options *options, struct limecove_reading *reading);

/* Writes the events of a reading from this one on over the first records, as many as fit. Returns how many were written. A reading that
 * is not open has no events. */
LIMECOVE_API size_t limecove_copy(struct limecove_reading *reading, size_t from, struct limecove_record *records, size_t records_len);

/* Gives back the memory of a reading, which is then not open. If it is not open, nothing changes. */
LIMECOVE_API void limecove_close(struct limecove_reading *reading);

/* Makes a document HTML. Writes the first bytes of the HTML over the first bytes of `out`, as many as fit, and nothing else. The count is how
 * many bytes the HTML has: if there are more than out_len, a call with that many writes all. No 0 is put behind it. `out` may be NULL if
 * out_len is 0, and shares no byte with the document or the options. If the code is not LIMECOVE_READ, nothing is written. */
LIMECOVE_API struct limecove_answer limecove_html(const uint8_t *document, size_t document_len, const struct limecove_html_options *options,
                                                  uint8_t *out, size_t out_len);

/* Reads a whole document with these constructs and tab stops, and keeps it for edits. If the code is LIMECOVE_READ, it is open, and the
 * count is that of its sections; else it is not open. It is not open before, as its memory would be lost. */
LIMECOVE_API struct limecove_answer limecove_document_new(const uint8_t *bytes, size_t bytes_len, const struct limecove_text_options *options,
                                                          struct limecove_document *document);

/* Puts bytes in the place of those from one up to another, and writes what changed. The count is that of the sections now. If the code is
 * not LIMECOVE_READ, the document is as it was, and nothing is written. */
LIMECOVE_API struct limecove_answer limecove_document_replace(struct limecove_document *document, size_t from, size_t to, const uint8_t *with,
                                                              size_t with_len, struct limecove_changed *change);

/* Writes the events of the sections from one up to another over the first records, as many as fit. Their places and links are those in the
 * whole document. The count is that of these events, and 0 if the code is not LIMECOVE_READ. */
LIMECOVE_API struct limecove_answer limecove_document_events(struct limecove_document *document, size_t from, size_t to,
                                                             struct limecove_record *records, size_t records_len);

/* Writes the sections that the last edit did not replace and of which something is new, in order, from this one of them on, over the first of
 * others, as many as fit. Returns how many were written. */
LIMECOVE_API size_t limecove_document_others(struct limecove_document *document, size_t from, struct limecove_named *named, size_t named_len);

/* Writes the place of a byte index, in units of UTF-8 if utf16 is 0, else of UTF-16. Returns LIMECOVE_READ, LIMECOVE_NO_SUCH_BYTES behind the
 * document's end and in a character, or LIMECOVE_NOT_OPEN. Only for LIMECOVE_READ it writes. */
LIMECOVE_API uint32_t limecove_document_place(struct limecove_document *document, size_t byte, uint32_t utf16, struct limecove_place *place);

/* Writes the byte index of a place, in units of UTF-8 if utf16 is 0, else of UTF-16. Behind a line's end it is the line's end. Returns codes
 * and writes as limecove_document_place does: LIMECOVE_NO_SUCH_BYTES for a line that there is not, and in a character. */
LIMECOVE_API uint32_t limecove_document_index(struct limecove_document *document, size_t line, size_t character, uint32_t utf16, size_t *index);

/* The section that a byte is in. At the document's end or behind it, the number of sections. 0 if it is not open. */
LIMECOVE_API size_t limecove_document_section_at(struct limecove_document *document, size_t byte);

/* Where a section starts: the index of its first byte. Behind the last section, how many bytes the document has. 0 if it is not open. */
LIMECOVE_API size_t limecove_document_start_of(struct limecove_document *document, size_t section);

/* Writes the bytes of a document from one index up to another over the first bytes of `out`, as many as fit. The count is how many they are.
 * `out` may be NULL if out_len is 0. If the code is not LIMECOVE_READ, nothing is written, and the count is 0: it is LIMECOVE_NO_SUCH_BYTES
 * for a range that is none of the document. */
LIMECOVE_API struct limecove_answer limecove_document_bytes(struct limecove_document *document, size_t from, size_t to, uint8_t *out,
                                                            size_t out_len);

/* Writes where the first definition of a label is. The label is as it stands in brackets, and need not be normalized. It goes over all events.
 * The count is 1, or 0 if nothing defines the label. Only for the count 1 it writes. */
LIMECOVE_API struct limecove_answer limecove_document_definition_of(struct limecove_document *document, const uint8_t *label, size_t label_len,
                                                                    struct limecove_defined *found);

/* Writes where the labels are that nothing in the document defines, of the references in the sections from one up to another, over the first
 * ranges, as many as fit: `a` of [a], [a][], ![a] and [b][a], where brackets were left as text. The count is that of these references, and 0 if the
 * code is not LIMECOVE_READ. */
LIMECOVE_API struct limecove_answer limecove_document_undefined(struct limecove_document *document, size_t from, size_t to,
                                                                struct limecove_byte_range *labels, size_t labels_len);

/* Gives back the memory of a document, which is then not open. If it is not open, nothing changes. */
LIMECOVE_API void limecove_document_close(struct limecove_document *document);

/* Whether bytes may stand between the brackets of a label: 1 if they may, else 0. There is no bracket in them that is not escaped, they have at
 * most 999 characters, and are not only white space. */
LIMECOVE_API uint32_t limecove_is_label(const uint8_t *bytes, size_t bytes_len);

/* Writes the form of a label by which labels are compared over the first bytes of `out`, as many as fit. The count is how many bytes it has. If
 * the code is not LIMECOVE_READ, it is LIMECOVE_OUT_OF_MEMORY, nothing is written, and the count is 0. */
LIMECOVE_API struct limecove_answer limecove_normalized_label(const uint8_t *label, size_t label_len, uint8_t *out, size_t out_len);

/* Writes back what it sees, so that a caller can compare its layout with the library's, field by field. `numbers` gets 1 to 9, a number
 * for each field in order. The other two records get the numbers of the options: the machine as the name, the size as the line, the tab
 * size as the column, the cut as the index, deep as vs, the constructs as previous, and 0 in all other fields. The answer has the code
 * 1 and the count 3. Nothing is read. No two of the pointers are the same. */
LIMECOVE_API struct limecove_answer limecove_echo(const struct limecove_options *options, const struct limecove_text_options *text,
                                                  struct limecove_record *numbers, struct limecove_record *of_options,
                                                  struct limecove_record *of_text);

/* Writes back a range as limecove_echo does options: where it begins as the line, where it ends as the column, and 0 in all other fields. */
LIMECOVE_API void limecove_echo_range(const struct limecove_byte_range *range, struct limecove_record *of_range);

/* Writes back options of HTML as limecove_echo does options: the size as the line, the tab size as the column, the constructs as previous,
 * what they let through as next, and 0 in all other fields. */
LIMECOVE_API void limecove_echo_html(const struct limecove_html_options *options, struct limecove_record *of_options);

#ifdef __cplusplus
}
#endif

#endif
