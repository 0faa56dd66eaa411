#!/usr/bin/env python3
"""Runs CommonMark's examples through the program, makes HTML of the events that it prints, and compares it with the example's HTML, byte
for byte. Prints for each section how many examples are right.

usage: tools/commonmark.py SPEC PROGRAM [--machine NAME] [--failing] [--example N]
       tools/commonmark.py --self-test
  SPEC            a spec.json: a list of objects with `example`, `section`, `markdown` and `html`. Debian's package
                  golang-github-yuin-goldmark-dev has that of CommonMark 0.30 (652 examples); `apt-get download` it and `dpkg -x` it, and
                  take usr/share/gocode/src/github.com/yuin/goldmark/_test/spec.json
  PROGRAM         mdevents, or what prints events as it does; it is called with --deep --machine NAME
  --machine NAME  the machine that reads the documents; without it, flow
  --failing       also the numbers of the examples that are not right
  --example N     only one example: its events, and how its HTML differs. The status is 1 if it does
  --self-test     the HTML of a few lists of events that are written by hand; no SPEC, no PROGRAM

The renderer knows no Markdown: it sees the names and places of events, and the bytes between places. A name without a rule makes the
example wrong. Two rules are of what no event says: a code span that begins and ends with a space loses both, unless it is all spaces; and a
list is loose if a blank line is between two blocks of an item, or
between two items.
"""

import collections
import difflib
import html.entities
import json
import re
import subprocess
import sys
import urllib.parse

sys.dont_write_bytecode = True
import usage  # noqa: E402

EVENT = re.compile(r"(enter|exit) (\w+) \d+:(\d+) \((\d+)\+(\d+)\)")
TAB = 4  # CommonMark's distance between tab stops
# These hold no text that is shown.
SILENT = {"SpaceOrTab", "BlankLineEnding", "LineEnding", "BlockQuotePrefix", "ListItemPrefix"}
MARKERS = {"AutolinkMarker", "CharacterEscapeMarker", "EmphasisSequence", "StrongSequence", "SpaceOrTab"}

Place = collections.namedtuple("Place", "column index vs")
Span = collections.namedtuple("Span", "name start end inner")


class NoRule(Exception):
    """What the program printed cannot be shown."""


def spans_of(printed):
    """The outermost spans of events as the program prints them, each with the spans in it."""
    open_spans = [Span(None, None, None, [])]
    for line in printed.splitlines():
        if not (event := EVENT.fullmatch(line)):
            raise NoRule(f"no event: {line}")
        kind, name, place = event[1], event[2], Place(*map(int, event.groups()[2:]))
        if kind == "enter":
            open_spans.append(Span(name, place, None, []))
            continue
        span = open_spans.pop()
        if span.name != name:
            raise NoRule(f"exit {name} in {span.name}")
        open_spans[-1].inner.append(span._replace(end=place))
    if len(open_spans) > 1:
        raise NoRule(f"no exit {open_spans[-1].name}")
    return open_spans[0].inner


def escaped(text):
    """Text as HTML has it."""
    return text.replace("&", "&amp;").replace("<", "&lt;").replace(">", "&gt;").replace('"', "&quot;")


def reference(marked):
    """The characters of a reference, which is a number behind `#` or `#x`, or a name."""
    if not marked.startswith("#"):
        return html.entities.html5[marked + ";"]
    number = int(marked[2:], 16) if marked[1] in "xX" else int(marked[1:])
    return chr(number) if 0 < number < 0xD800 or 0xDFFF < number < 0x110000 else "\ufffd"


def address(text):
    """An address as an attribute has it."""
    return escaped(urllib.parse.quote(text, safe="-_.+!*(),%#@?=;:/$~&'")).replace("'", "&#x27;")


class Document(bytes):
    """A document's bytes, with what its definitions say: a target and a title, or None, by the label in the form by which labels are compared."""

    definitions = {}


class Inline:
    """Writes the spans of a text."""

    def __init__(self, document):
        self.document, self.html = document, ""

    def write(self, shown):
        self.html += shown

    def spans(self, spans):
        for span in spans:
            self.span(span)

    def span(self, span):
        name, text = span.name, bytes_of(self.document, span)
        if name == "Data":
            self.write(escaped(text))
        elif name == "LineEnding":
            self.write("\n")
        elif name in ("HardBreakEscape", "HardBreakTrailing"):
            self.write("<br />")
        elif name == "CharacterEscapeValue":
            self.write(escaped(text))
        elif name == "CharacterReference":
            self.write(escaped(reference(text[1:-1])))
        elif name in ("AutolinkProtocol", "AutolinkEmail"):
            self.write(f'<a href="{address("mailto:" * (name == "AutolinkEmail") + text)}">{escaped(text)}</a>')
        elif name == "CodeText":
            self.write(f"<code>{escaped(self.code(span.inner))}</code>")
        elif name == "HtmlTextData":
            self.write(text)
        elif name in ("Emphasis", "Strong"):
            tag = "em" if name == "Emphasis" else "strong"
            self.write(f"<{tag}>")
            self.spans(span.inner)
            self.write(f"</{tag}>")
        elif name in ("Link", "Image"):
            self.link(span)
        elif name in ("EmphasisText", "StrongText", "HtmlText", "Autolink", "CharacterEscape"):
            self.spans(span.inner)
        elif name not in MARKERS:
            raise NoRule(f"no rule for {name} in a text")

    def link(self, span):
        """A link, or an image, whose text is shown without tags."""
        # (the tail behind the label: one in the label's text is of another link)
        tail = [it for it in span.inner if it.name in ("Resource", "Reference")]
        text = [it for label in span.inner if label.name == "Label" for inner in label.inner if inner.name == "LabelText" for it in inner.inner]
        if tail and tail[0].name == "Resource":
            target, title = parts(self.document, tail[0], "Resource")
        else:
            label = found(tail[0], "ReferenceString") if tail else []
            target, title = self.document.definitions[normal(spelled(self.document, label[0].inner if label else text))]
        attribute = "" if title is None else f' title="{escaped(title)}"'
        if span.name == "Link":
            self.write(f'<a href="{address(target or "")}"{attribute}>')
            self.spans(text)
            self.write("</a>")
        else:
            self.write(f'<img src="{address(target or "")}" alt="{escaped(shown(self.document, text))}"{attribute} />')

    def code(self, spans):
        """The text of a code span."""
        code = ""
        for span in spans:
            if span.name == "SpaceOrTab":  # the white space of a further line
                continue
            if span.name not in ("CodeTextSequence", "CodeTextData", "LineEnding"):
                raise NoRule(f"no rule for {span.name} in a code span")
            if span.name == "CodeTextData":
                code += bytes_of(self.document, span)
            elif span.name == "LineEnding":
                code += " "
        return code[1:-1] if code[:1] == code[-1:] == " " and code.strip(" ") else code


def bytes_of(document, span):
    """What is between the places of a span. A part of a tab is as many spaces as it has columns."""
    (column, start, vs), (_, end, end_vs) = span.start, span.end
    if start == end:
        return " " * (end_vs - vs)
    width = TAB - (column - vs - 1) % TAB
    first = " " * (width - vs) if vs else ""
    return first + document[start + (vs > 0) : end].decode("utf-8", "replace") + " " * end_vs


def spelled(document, spans):
    """The bytes of a label, as they are written: those of its innermost spans, without the prefixes of containers."""
    return "".join(spelled(document, it.inner) if it.inner else bytes_of(document, it) for it in spans if it.name != "BlockQuotePrefix")


def normal(label):
    """The form by which labels are compared."""
    return " ".join(label.split()).lower().upper()


def parts(document, span, kind):
    """The target and the title of a resource or a definition; None for one that is not there. An empty title is one, as cmark has it."""

    def part(name):
        if string := found(span, f"{kind}{name}String"):
            return plain(document, string[0].inner)
        return "" if found(span, f"{kind}{name}") else None

    return part("Destination"), part("Title")


def definitions_in(document, spans):
    """What the definitions of a document say, by their labels. The first one of a label counts."""
    known = {}
    for span in spans:
        more = definitions_in(document, span.inner)
        if span.name == "Definition":
            more = {normal(spelled(document, found(span, "DefinitionLabelString")[0].inner)): parts(document, span, "Definition")}
        known = {**more, **known}
    return known


def plain(document, spans):
    """The text of a string: its lines, without the white space that a further line begins with."""
    text = ""
    for span in spans:
        if span.name == "Data":
            text += bytes_of(document, span)
        elif span.name == "LineEnding":
            text += "\n"
        elif span.name == "CharacterEscape":
            text += "".join(bytes_of(document, it) for it in span.inner if it.name == "CharacterEscapeValue")
        elif span.name == "CharacterReference":
            text += reference(bytes_of(document, span)[1:-1])
        elif span.name not in ("SpaceOrTab", "BlockQuotePrefix"):
            raise NoRule(f"no rule for {span.name} in a string")
    return text


def shown(document, spans):
    """The text of spans without what marks it: what is shown in place of an image."""
    text = ""
    for span in spans:
        if span.name in ("Data", "CharacterEscapeValue", "HtmlTextData", "AutolinkProtocol", "AutolinkEmail"):
            text += bytes_of(document, span)
        elif span.name in ("LineEnding", "HardBreakEscape", "HardBreakTrailing"):
            text += "" if text.endswith(" ") else " "
        elif span.name == "CharacterReference":
            text += reference(bytes_of(document, span)[1:-1])
        elif span.name == "CodeText":
            text += Inline(document).code(span.inner)
        elif span.name in ("Emphasis", "Strong", "EmphasisText", "StrongText", "Link", "Image", "Label", "LabelText", "CharacterEscape", "HtmlText", "Autolink"):
            text += shown(document, span.inner)
    return text


def inline(document, spans):
    """The HTML of a text."""
    writer = Inline(document)
    writer.spans(spans)
    return writer.html


def found(span, name):
    """The spans of a name in a span, at any depth."""
    return [it for inner in span.inner for it in [inner] * (inner.name == name) + found(inner, name)]


def lines_of(document, spans, data):
    """The lines of code or HTML, each with its ending: what spans of one name hold; white space apart is left out."""
    text, is_begun = "", False
    for span in spans:
        if span.name not in (data, "LineEnding", "SpaceOrTab"):
            raise NoRule(f"no rule for {span.name} before or after {data}")
        text += "\n" if span.name == "LineEnding" else bytes_of(document, span) if span.name == data else ""
        is_begun = span.name != "LineEnding"
    return text + "\n" * is_begun


def fenced(document, span):
    """The HTML of fenced code: the first line is a fence, and the last one may be. White space before that one is of items."""
    inside = [it for it in span.inner if it.name != "CodeFencedFence"]
    while span.inner[-1].name == "CodeFencedFence" and inside and inside[-1].name == "SpaceOrTab":
        inside.pop()
    info = "".join(inline(document, it.inner) for it in found(span, "CodeFencedFenceInfo"))
    attribute = f' class="language-{info}"' if info else ""
    return f"<pre><code{attribute}>{escaped(lines_of(document, inside[1:], 'CodeFlowChunk'))}</code></pre>\n"


def heading(document, span, name, level):
    """The HTML of a heading."""
    text = "".join(inline(document, it.inner) for it in found(span, name))
    return f"<h{level}>{text}</h{level}>\n"


def is_apart(spans):
    """Whether a blank line is between two blocks: behind the beginning of its line is only white space or a prefix."""
    is_begun = is_line = is_blank = False
    for span in spans:
        if span.name in ("LineEnding", "BlankLineEnding"):
            is_blank |= is_line and is_begun
            is_line = True
        elif span.name not in SILENT:
            if is_blank:
                return True
            is_begun, is_line = True, span.end.column == 1
    return False


def prefixless(span):
    """A leaf block without the prefixes of quotes."""
    return span._replace(inner=[prefixless(it) for it in span.inner if it.name != "BlockQuotePrefix"])


def listed(document, span):
    """The HTML of a list. Where it is tight, a paragraph of an item has no tag of its own."""
    items = [it for it in span.inner if it.name == "ListItem"]
    is_tight = not is_apart(span.inner) and not any(is_apart(it.inner) for it in items)
    made = "".join(f"<li>{item(document, it, is_tight)}</li>\n" for it in items)
    if span.name == "ListUnordered":
        return f"<ul>\n{made}</ul>\n"
    number = int(bytes_of(document, found(items[0], "ListItemValue")[0]))
    start = "" if number == 1 else f' start="{number}"'
    return f"<ol{start}>\n{made}</ol>\n"


def item(document, span, is_tight):
    """The HTML of what is in an item."""
    made, is_text = "", True
    for inner in span.inner:
        if inner.name == "Definition" or inner.name in SILENT:
            continue
        was_text, is_text = is_text, is_tight and inner.name == "Paragraph"
        html_of_it = inline(document, prefixless(inner).inner) if is_text else block(document, inner)
        made += ("" if is_text and was_text or made.endswith("\n") else "\n") + html_of_it
    return made


def block(document, span):
    """The HTML of a block."""
    name = span.name
    if name == "BlockQuote":
        return f"<blockquote>\n{''.join(block(document, it) for it in span.inner)}</blockquote>\n"
    if name in ("ListOrdered", "ListUnordered"):
        return listed(document, span)
    span = prefixless(span)
    if name == "Paragraph":
        return f"<p>{inline(document, span.inner)}</p>\n"
    if name == "HeadingAtx":
        return heading(document, span, "HeadingAtxText", len(bytes_of(document, found(span, "HeadingAtxSequence")[0])))
    if name == "HeadingSetext":
        underline = bytes_of(document, found(span, "HeadingSetextUnderlineSequence")[0])
        return heading(document, span, "HeadingSetextText", 1 if underline[0] == "=" else 2)
    if name == "ThematicBreak":
        return "<hr />\n"
    if name == "CodeIndented":
        return f"<pre><code>{escaped(lines_of(document, span.inner, 'CodeFlowChunk'))}</code></pre>\n"
    if name == "CodeFenced":
        return fenced(document, span)
    if name == "HtmlFlow":
        return lines_of(document, span.inner, "HtmlFlowData")
    if name == "Definition" or name in SILENT:
        return ""
    raise NoRule(f"no rule for {name} outside of blocks")


def rendered(document, printed):
    """The HTML of a document whose events are printed so."""
    spans = spans_of(printed)
    document = Document(document)
    document.definitions = definitions_in(document, spans)
    return "".join(block(document, span) for span in spans)


def events_of(document, program, machine):
    """What the program prints for a document."""
    ran = subprocess.run([program, "--deep", "--machine", machine], input=document, capture_output=True, check=False)
    if ran.returncode:
        raise NoRule(f"status {ran.returncode}: {ran.stderr.decode('utf-8', 'replace').strip()}")
    return ran.stdout.decode()


def result(example, program, machine):
    """The HTML of an example, or a line that says why there is none."""
    document = example["markdown"].encode()
    try:
        return rendered(document, events_of(document, program, machine))
    except NoRule as why:
        return f"({why})\n"


def show(example, program, machine):
    """Prints an example with the differences of its HTML, and returns whether there are any."""
    ours = result(example, program, machine)
    print(f"example {example['example']}, {example['section']}: {example['markdown']!r}")
    try:
        print(events_of(example["markdown"].encode(), program, machine), end="")
    except NoRule as why:
        print(why)
    lines = [text.splitlines() for text in (example["html"], ours)]
    print("\n".join(difflib.unified_diff(*lines, "wanted", "made", lineterm="")))
    return ours != example["html"]


def count(examples, program, machine, is_listed):
    """Prints how many examples of each section are right, and perhaps which are not."""
    right, of, failing = collections.Counter(), collections.Counter(), []
    for example in examples:
        of[example["section"]] += 1
        if result(example, program, machine) == example["html"]:
            right[example["section"]] += 1
        else:
            failing.append(example["example"])
    for section in of:
        print(f"{section:40} {right[section]:4} of {of[section]:4}")
    print(f"{'all, by the machine ' + machine:40} {right.total():4} of {of.total():4}")
    if is_listed:
        print("not right:", *failing)


# ---- the self-test: documents, their events in short, and their HTML, all by hand. `+Name 0:1` enters at byte 0, column 1.
BY_HAND = [
    ("# a *b*\n", "+HeadingAtx 0:1 =HeadingAtxSequence 0:1 1:2 =SpaceOrTab 1:2 2:3 +HeadingAtxText 2:3 =Data 2:3 4:5 +Emphasis 4:5 =EmphasisSequence 4:5 5:6"
     " +EmphasisText 5:6 =Data 5:6 6:7 -EmphasisText 6:7 =EmphasisSequence 6:7 7:8 -Emphasis 7:8 -HeadingAtxText 7:8 -HeadingAtx 7:8 =LineEnding 7:8 8:1",
     "<h1>a <em>b</em></h1>\n"),
    (" a \n b<\n", "+Paragraph 0:1 =SpaceOrTab 0:1 1:2 =Data 1:2 2:3 =SpaceOrTab 2:3 3:4 =LineEnding 3:4 4:1 =SpaceOrTab 4:1 5:2 =Data 5:2 7:4"
     " -Paragraph 7:4 =LineEnding 7:4 8:1", "<p>a\nb&lt;</p>\n"),
    ("\ta\n\n\t b", "+CodeIndented 0:1 =SpaceOrTab 0:1 1:5 =CodeFlowChunk 1:5 2:6 =LineEnding 2:6 3:1 =LineEnding 3:1 4:1 =SpaceOrTab 4:1 5:5"
     " =CodeFlowChunk 5:5 7:7 -CodeIndented 7:7", "<pre><code>a\n\n b\n</code></pre>\n"),
    # two columns of a tab are of the fence's indentation, and two of the code
    ("  ```x\n\ta\n", "+CodeFenced 0:1 +CodeFencedFence 0:1 =SpaceOrTab 0:1 2:3 =CodeFencedFenceSequence 2:3 5:6 +CodeFencedFenceInfo 5:6 =Data 5:6 6:7"
     " -CodeFencedFenceInfo 6:7 -CodeFencedFence 6:7 =LineEnding 6:7 7:1 =SpaceOrTab 7:1 7:3+2 =CodeFlowChunk 7:3+2 9:6 =LineEnding 9:6 10:1 -CodeFenced 10:1",
     '<pre><code class="language-x">  a\n</code></pre>\n'),
    ("a\n--\n***\n<p>\n", "+HeadingSetext 0:1 +HeadingSetextText 0:1 =Data 0:1 1:2 -HeadingSetextText 1:2 =LineEnding 1:2 2:1 +HeadingSetextUnderline 2:1"
     " =HeadingSetextUnderlineSequence 2:1 4:3 -HeadingSetextUnderline 4:3 -HeadingSetext 4:3 =LineEnding 4:3 5:1 +ThematicBreak 5:1"
     " =ThematicBreakSequence 5:1 8:4 -ThematicBreak 8:4 =LineEnding 8:4 9:1 +HtmlFlow 9:1 =HtmlFlowData 9:1 12:4 -HtmlFlow 12:4 =LineEnding 12:4 13:1",
     "<h2>a</h2>\n<hr />\n<p>\n"),
    ("` a\n b `&lt;\\*\\\n<b>", "+Paragraph 0:1 +CodeText 0:1 =CodeTextSequence 0:1 1:2 =CodeTextData 1:2 3:4 =LineEnding 3:4 4:1 =SpaceOrTab 4:1 5:2 =CodeTextData 5:2 7:4"
     " =CodeTextSequence 7:4 8:5 -CodeText 8:5 +CharacterReference 8:5 =CharacterReferenceMarker 8:5 9:6 =CharacterReferenceValue 9:6 11:8"
     " =CharacterReferenceMarkerSemi 11:8 12:9 -CharacterReference 12:9 +CharacterEscape 12:9 =CharacterEscapeMarker 12:9 13:10"
     " =CharacterEscapeValue 13:10 14:11 -CharacterEscape 14:11 =HardBreakEscape 14:11 15:12 =LineEnding 15:12 16:1 +HtmlText 16:1 =HtmlTextData 16:1 19:4"
     " -HtmlText 19:4 -Paragraph 19:4", "<p><code>a b</code>&lt;*<br />\n<b></p>\n"),
    # a further line of a title begins with white space
    ('[a](b "c\n d")', "+Paragraph 0:1 +Link 0:1 +Label 0:1 +LabelLink 0:1 =LabelMarker 0:1 1:2 -LabelLink 1:2 +LabelText 1:2 =Data 1:2 2:3 -LabelText 2:3"
     " +LabelEnd 2:3 =LabelMarker 2:3 3:4 -LabelEnd 3:4 -Label 3:4 +Resource 3:4 =ResourceMarker 3:4 4:5 +ResourceDestination 4:5 +ResourceDestinationRaw 4:5"
     " +ResourceDestinationString 4:5 =Data 4:5 5:6 -ResourceDestinationString 5:6 -ResourceDestinationRaw 5:6 -ResourceDestination 5:6 =SpaceOrTab 5:6 6:7"
     " +ResourceTitle 6:7 =ResourceTitleMarker 6:7 7:8 +ResourceTitleString 7:8 =Data 7:8 8:9 =LineEnding 8:9 9:1 =SpaceOrTab 9:1 10:2 =Data 10:2 11:3"
     " -ResourceTitleString 11:3 =ResourceTitleMarker 11:3 12:4 -ResourceTitle 12:4 =ResourceMarker 12:4 13:5 -Resource 13:5 -Link 13:5 -Paragraph 13:5",
     '<p><a href="b" title="c\nd">a</a></p>\n'),
    ("<a:\xe9&>", "+Paragraph 0:1 +Autolink 0:1 =AutolinkMarker 0:1 1:2 =AutolinkProtocol 1:2 6:7 =AutolinkMarker 6:7 7:8 -Autolink 7:8 -Paragraph 7:8",
     '<p><a href="a:%C3%A9&amp;">a:\xe9&amp;</a></p>\n'),
    ("- a\n- > b\n", "+ListUnordered 0:1 +ListItem 0:1 +ListItemPrefix 0:1 =ListItemMarker 0:1 1:2 =SpaceOrTab 1:2 2:3 -ListItemPrefix 2:3 +Paragraph 2:3"
     " =Data 2:3 3:4 -Paragraph 3:4 -ListItem 3:4 =LineEnding 3:4 4:1 +ListItem 4:1 +ListItemPrefix 4:1 =ListItemMarker 4:1 5:2 =SpaceOrTab 5:2 6:3"
     " -ListItemPrefix 6:3 +BlockQuote 6:3 +BlockQuotePrefix 6:3 =BlockQuoteMarker 6:3 7:4 =SpaceOrTab 7:4 8:5 -BlockQuotePrefix 8:5 +Paragraph 8:5"
     " =Data 8:5 9:6 -Paragraph 9:6 -BlockQuote 9:6 -ListItem 9:6 -ListUnordered 9:6 =LineEnding 9:6 10:1",
     "<ul>\n<li>a</li>\n<li>\n<blockquote>\n<p>b</p>\n</blockquote>\n</li>\n</ul>\n"),
    # a blank line between two items, and a list that starts with 2
    ("2. a\n\n3. b", "+ListOrdered 0:1 +ListItem 0:1 +ListItemPrefix 0:1 =ListItemValue 0:1 1:2 =ListItemMarker 1:2 2:3 =SpaceOrTab 2:3 3:4 -ListItemPrefix 3:4"
     " +Paragraph 3:4 =Data 3:4 4:5 -Paragraph 4:5 -ListItem 4:5 =LineEnding 4:5 5:1 =BlankLineEnding 5:1 6:1 +ListItem 6:1 +ListItemPrefix 6:1"
     " =ListItemValue 6:1 7:2 =ListItemMarker 7:2 8:3 =SpaceOrTab 8:3 9:4 -ListItemPrefix 9:4 +Paragraph 9:4 =Data 9:4 10:5 -Paragraph 10:5 -ListItem 10:5"
     " -ListOrdered 10:5", '<ol start="2">\n<li>\n<p>a</p>\n</li>\n<li>\n<p>b</p>\n</li>\n</ol>\n'),
    ("a", "+Paragraph 0:1 =Peek 0:1 1:2 -Paragraph 1:2", None),
    ("a", "+Paragraph 0:1 =Data 0:1 1:2", None),
]


def written_out(short):
    """Events as the program prints them: `=` is an enter and its exit."""
    lines = []
    for kinds, name, places in re.findall(r"([+=-])(\w+)((?: \d\S*)+)", short):
        for kind, place in zip({"+": ["enter"], "-": ["exit"], "=": ["enter", "exit"]}[kinds], places.split()):
            index, column, vs = re.fullmatch(r"(\d+):(\d+)(?:\+(\d+))?", place).groups()
            lines.append(f"{kind} {name} 1:{column} ({index}+{vs or 0})")
    return "\n".join(lines)


def self_test():
    """The lists by hand; None is HTML that there is not. Returns whether one is wrong."""
    is_wrong = False
    for document, short, wanted in BY_HAND:
        try:
            made = rendered(document.encode(), written_out(short))
        except NoRule:
            made = None
        if made != wanted:
            is_wrong = True
            print(f"{document!r}: {made!r}, and not {wanted!r}")
    return is_wrong


def main():
    parser = usage.Words(__doc__)
    parser.add_argument("spec", nargs="?")
    parser.add_argument("program", nargs="?")
    parser.add_argument("--machine", default="flow")
    parser.add_argument("--failing", action="store_true")
    parser.add_argument("--example", type=int)
    parser.add_argument("--self-test", action="store_true")
    words = parser.parse_args()
    if words.self_test:
        sys.exit(self_test())
    if not words.program:
        parser.error("SPEC and PROGRAM are needed, or --self-test")
    with open(words.spec, encoding="utf-8") as file:
        examples = json.load(file)
    if words.example is None:
        count(examples, words.program, words.machine, words.failing)
        return
    chosen = [it for it in examples if it["example"] == words.example]
    if not chosen:
        parser.error(f"no example {words.example}")
    sys.exit(show(chosen[0], words.program, words.machine))


if __name__ == "__main__":
    main()
