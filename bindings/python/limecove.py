"""Markdown by Limecove, whose library is proved: the events of a document, and its HTML. One file, over the standard library's ctypes.

    >>> import limecove
    >>> [str(event) for event in limecove.events("*a*")][:2]
    ['enter Paragraph 1:1 (0+0)', 'enter Emphasis 1:1 (0+0)']
    >>> limecove.html("*a*")
    '<p><em>a</em></p>\\n'

It loads liblimecove.so, which `bindings/release.sh` makes, from the folder that LIMECOVE_LIB names, or from the release that it is in. It needs
Python 3.8. Threads may call at the same time. What is passed to the library is laid out as bindings/limecove.h says.
"""

import ctypes
import os
import platform
from ctypes import POINTER, Structure, byref, c_char_p, c_size_t, c_uint16, c_uint32, c_uint64, c_void_p
from typing import NamedTuple

VERSION = 4

# written by names.py: begin
# The names of spans, in the order of their numbers.
NAMES = (
    "AttentionSequence",
    "Autolink",
    "AutolinkEmail",
    "AutolinkMarker",
    "AutolinkProtocol",
    "BlankLineEnding",
    "BlockQuote",
    "BlockQuoteMarker",
    "BlockQuotePrefix",
    "ByteOrderMark",
    "CharacterEscape",
    "CharacterEscapeMarker",
    "CharacterEscapeValue",
    "CharacterReference",
    "CharacterReferenceMarker",
    "CharacterReferenceMarkerHexadecimal",
    "CharacterReferenceMarkerNumeric",
    "CharacterReferenceMarkerSemi",
    "CharacterReferenceValue",
    "CodeFenced",
    "CodeFencedFence",
    "CodeFencedFenceInfo",
    "CodeFencedFenceMeta",
    "CodeFencedFenceSequence",
    "CodeFlowChunk",
    "CodeIndented",
    "CodeText",
    "CodeTextData",
    "CodeTextSequence",
    "Content",
    "Data",
    "Definition",
    "DefinitionDestination",
    "DefinitionDestinationLiteral",
    "DefinitionDestinationLiteralMarker",
    "DefinitionDestinationRaw",
    "DefinitionDestinationString",
    "DefinitionLabel",
    "DefinitionLabelMarker",
    "DefinitionLabelString",
    "DefinitionMarker",
    "DefinitionTitle",
    "DefinitionTitleMarker",
    "DefinitionTitleString",
    "Emphasis",
    "EmphasisSequence",
    "EmphasisText",
    "Frontmatter",
    "FrontmatterChunk",
    "FrontmatterFence",
    "FrontmatterSequence",
    "GfmAutolinkLiteralEmail",
    "GfmAutolinkLiteralMailto",
    "GfmAutolinkLiteralProtocol",
    "GfmAutolinkLiteralWww",
    "GfmAutolinkLiteralXmpp",
    "GfmFootnoteCall",
    "GfmFootnoteCallLabel",
    "GfmFootnoteCallMarker",
    "GfmFootnoteDefinition",
    "GfmFootnoteDefinitionPrefix",
    "GfmFootnoteDefinitionLabel",
    "GfmFootnoteDefinitionLabelMarker",
    "GfmFootnoteDefinitionLabelString",
    "GfmFootnoteDefinitionMarker",
    "GfmStrikethrough",
    "GfmStrikethroughSequence",
    "GfmStrikethroughText",
    "GfmTable",
    "GfmTableBody",
    "GfmTableCell",
    "GfmTableCellText",
    "GfmTableCellDivider",
    "GfmTableDelimiterRow",
    "GfmTableDelimiterMarker",
    "GfmTableDelimiterCell",
    "GfmTableDelimiterCellValue",
    "GfmTableDelimiterFiller",
    "GfmTableHead",
    "GfmTableRow",
    "GfmTaskListItemCheck",
    "GfmTaskListItemMarker",
    "GfmTaskListItemValueChecked",
    "GfmTaskListItemValueUnchecked",
    "HardBreakEscape",
    "HardBreakTrailing",
    "HeadingAtx",
    "HeadingAtxSequence",
    "HeadingAtxText",
    "HeadingSetext",
    "HeadingSetextText",
    "HeadingSetextUnderline",
    "HeadingSetextUnderlineSequence",
    "HtmlFlow",
    "HtmlFlowData",
    "HtmlText",
    "HtmlTextData",
    "Image",
    "Label",
    "LabelEnd",
    "LabelImage",
    "LabelImageMarker",
    "LabelLink",
    "LabelMarker",
    "LabelText",
    "LineEnding",
    "Link",
    "ListItem",
    "ListItemMarker",
    "ListItemPrefix",
    "ListItemValue",
    "ListOrdered",
    "ListUnordered",
    "MathFlow",
    "MathFlowFence",
    "MathFlowFenceMeta",
    "MathFlowFenceSequence",
    "MathFlowChunk",
    "MathText",
    "MathTextData",
    "MathTextSequence",
    "Paragraph",
    "Reference",
    "ReferenceMarker",
    "ReferenceString",
    "Resource",
    "ResourceDestination",
    "ResourceDestinationLiteral",
    "ResourceDestinationLiteralMarker",
    "ResourceDestinationRaw",
    "ResourceDestinationString",
    "ResourceMarker",
    "ResourceTitle",
    "ResourceTitleMarker",
    "ResourceTitleString",
    "SpaceOrTab",
    "Strong",
    "StrongSequence",
    "StrongText",
    "ThematicBreak",
    "ThematicBreakSequence",
    "LinePrefix",
)
# written by names.py: end

# Bits of constructs: those of CommonMark, which are on by default, and six of GFM. The other bits are in limecove.h.
COMMONMARK = 1048575
GFM_STRIKETHROUGH = 1048576
# these two rewrite the events of a document
GFM_AUTOLINK_LITERAL = 2097152
GFM_TASK_LIST_ITEM = 4194304
# tables
GFM_TABLE = 8388608
# definitions of footnotes, and their calls
GFM_FOOTNOTE_DEFINITION = 16777216
GFM_LABEL_START_FOOTNOTE = 33554432
# no construct: with it one tilde is text, and two strike through
GFM_STRIKETHROUGH_DOUBLE_TILDE = 67108864

# Bits of what HTML may let through. If none of these three is set, the HTML is safe, whatever the document is.
ALLOW_DANGEROUS_HTML = 1
ALLOW_DANGEROUS_PROTOCOL = 2
ALLOW_ANY_IMG_SRC = 4
# of HTML that is let through, tags that GFM disallows are text: no protection
GFM_TAGFILTER = 8

_DOCUMENT = 8
_OUT_OF_MEMORY, _NO_SUCH_TAB_SIZE, _NO_SUCH_CONSTRUCT, _NO_SUCH_PERMISSION = 1, 4, 5, 11
_REASONS = (
    "read",
    "out of memory",
    "document too long",
    "options of another size",
    "no such tab size",
    "no such construct",
    "no such machine",
    "the machine links no text",
    "the ranges are no text",
    "no such bytes",
    "the document is not open",
    "no such permission",
)


class Error(Exception):
    """Why a document was not read. If memory ran out, it is a MemoryError instead."""

    def __init__(self, code):
        super().__init__(_REASONS[code] if code < len(_REASONS) else f"code {code}")
        self.code = code


class Event(NamedTuple):
    """The start or the end of a span."""

    is_enter: bool
    """Whether the span begins."""
    name: str
    """What the span is."""
    line: int
    """From 1."""
    column: int
    """Virtual column in the line, from 1. A tab goes to the next tab stop."""
    index: int
    """Byte index into the document, from 0. Of a text it is that of its UTF-8."""
    vs: int
    """Number of the virtual byte of a tab, from 0; 0 elsewhere."""

    def __str__(self):
        kind = "enter" if self.is_enter else "exit"
        return f"{kind} {self.name} {self.line}:{self.column} ({self.index}+{self.vs})"


class _Answer(Structure):
    _fields_ = [("code", c_uint32), ("version", c_uint32), ("count", c_size_t)]


class _Options(Structure):
    _fields_ = [("size", c_size_t), ("tab_size", c_size_t), ("constructs", c_uint64), ("cut", c_size_t), ("machine", c_uint32), ("deep", c_uint32)]


class _HtmlOptions(Structure):
    _fields_ = [("size", c_size_t), ("tab_size", c_size_t), ("constructs", c_uint64), ("allow", c_uint64)]


class _Record(Structure):
    _fields_ = [
        ("kind", c_uint16),
        ("content", c_uint16),
        ("name", c_uint32),
        ("line", c_size_t),
        ("column", c_size_t),
        ("index", c_size_t),
        ("vs", c_size_t),
        ("previous", c_size_t),
        ("next", c_size_t),
    ]


class _Reading(Structure):
    _fields_ = [("is_open", c_size_t), ("list", c_void_p)]


def _folders():
    """The folders that may have the library."""
    named = os.environ.get("LIMECOVE_LIB")
    if named:
        return [named]
    here = os.path.dirname(os.path.realpath(__file__))
    return [here, os.path.join(here, "..", f"{platform.machine()}-unknown-linux-gnu", "lib")]


def _loaded():
    """The library, with the types of what is called here."""
    paths = [os.path.join(it, f"liblimecove.so.{VERSION}") for it in _folders()]
    path = next((it for it in paths if os.path.exists(it)), None)
    if path is None:
        raise ImportError(f"set LIMECOVE_LIB to the folder that has liblimecove.so.{VERSION}: it is not {' or '.join(paths)}")
    library = ctypes.CDLL(path)
    library.limecove_version.restype = c_uint32
    if library.limecove_version() != VERSION:
        raise ImportError(f"{path} has another version")
    types = {
        "limecove_open": (_Answer, [c_char_p, c_size_t, POINTER(_Options), POINTER(_Reading)]),
        "limecove_copy": (c_size_t, [POINTER(_Reading), c_size_t, POINTER(_Record), c_size_t]),
        "limecove_close": (None, [POINTER(_Reading)]),
        "limecove_html": (_Answer, [c_char_p, c_size_t, POINTER(_HtmlOptions), c_void_p, c_size_t]),
    }
    for name, (result, arguments) in types.items():
        function = getattr(library, name)
        function.restype, function.argtypes = result, arguments
    return library


_library = _loaded()


def _bytes_of(document):
    """A document as bytes: a text as UTF-8."""
    if isinstance(document, str):
        return document.encode()
    return document if isinstance(document, bytes) else memoryview(document).tobytes()


def _number(value, code):
    """A number that fits its field: ctypes would cut one that does not. Else there is no such thing, by its code."""
    if not 0 <= value < 1 << 64:
        raise Error(code)
    return value


def _count(answer):
    """How many there are of what a call gives, if it succeeded."""
    if answer.code == _OUT_OF_MEMORY:
        raise MemoryError(_REASONS[_OUT_OF_MEMORY])
    if answer.code:
        raise Error(answer.code)
    return answer.count


def _chosen(tab_size, constructs):
    """The numbers of options."""
    return _number(tab_size, _NO_SUCH_TAB_SIZE), _number(constructs, _NO_SUCH_CONSTRUCT)


def events(document, *, constructs=COMMONMARK, tab_size=4):
    """The events of a document: a list of Event. The document is bytes, or a text, which is read as UTF-8. It raises Error if there is no such
    construct or tab size, and MemoryError if memory runs out."""
    document = _bytes_of(document)
    options = _Options(ctypes.sizeof(_Options), *_chosen(tab_size, constructs), 0, _DOCUMENT, 1)
    reading = _Reading(0, None)
    answer = _library.limecove_open(document, len(document), byref(options), byref(reading))
    count = _count(answer)
    try:
        records = (_Record * count)()
        _library.limecove_copy(byref(reading), 0, records, count)
    finally:
        _library.limecove_close(byref(reading))
    return [Event(it.kind == 0, NAMES[it.name], it.line, it.column, it.index, it.vs) for it in records]


def html(document, *, constructs=COMMONMARK, tab_size=4, allow=0):
    """The HTML of a document: a text if that is a text, else bytes. It is safe, whatever the document is, if `allow` is 0. It raises what `events`
    does, and Error if there is no such permission."""
    given = _bytes_of(document)
    options = _HtmlOptions(ctypes.sizeof(_HtmlOptions), *_chosen(tab_size, constructs), _number(allow, _NO_SUCH_PERMISSION))
    room = 2 * len(given) + 64
    while True:
        out = ctypes.create_string_buffer(room)
        count = _count(_library.limecove_html(given, len(given), byref(options), out, room))
        if count <= room:
            return out.raw[:count].decode() if isinstance(document, str) else out.raw[:count]
        room = count
