#!/usr/bin/env python3
"""Checks that what the program `mdhtml` writes with default options is safe HTML, by a reader of that grammar that was written apart from
`IsSafeHtml` (`crates/mdhtml_markup/specs/SafeHtml.antt`) and takes exactly the same strings: it is no stricter. The documents are attacks: payloads in
all places that a document has for them, and others by themselves; and, if they are named, CommonMark's examples, real files and random documents.

The status is 1 if the HTML of a document is not safe, or there is none; it is shown.

usage: tools/safe_html.py PROGRAM [--gfm] [--spec SPEC] [--real DIR] [--random COUNT] [--seed S]
       tools/safe_html.py --self-test
  PROGRAM         mdhtml, or what writes HTML as it does; or the C library, if it ends in .so: its limecove_html is called, some ten times as fast
  --gfm           with all of GFM that the library has; no program
  --spec SPEC     a spec.json, whose examples are documents too. tools/commonmark.py says where there is one
  --real DIR      a folder, whose files that end in .md or .markdown are documents too. `tools/real_files.py --fetch DIR` fetches 695, into DIR/files
  --random COUNT  so many random documents, of parts of attacks and marks
  --seed S        the seed of the first one; without it, 1
  --self-test     strings that the grammar takes and strings that it does not, all by hand; no PROGRAM
"""

import ctypes
import json
import os
import random
import re
import subprocess
import sys

sys.path.insert(0, os.path.dirname(os.path.realpath(__file__)))
sys.dont_write_bytecode = True
import real_files  # noqa: E402
import usage  # noqa: E402

# ---- the grammar

ENTITIES = {b"amp": b"&", b"lt": b"<", b"gt": b">", b"quot": b'"', b"#x27": b"'", b"#x1B": b"\x1b"}
ENTITY = re.compile(rb"&(" + b"|".join(ENTITIES) + rb");")
TEXT = re.compile(rb'(?:[^<>&"\0\x1b]|' + ENTITY.pattern + rb")*")
NAMES = rb"a|blockquote|br|code|del|em|h1|h2|h3|h4|h5|h6|hr|img|input|li|ol|p|pre|section|strong|sup|table|tbody|td|th|thead|tr|ul"
TAG = re.compile(rb"<(/?)(" + NAMES + rb')(?=[ >])((?: [-a-z]+="[^"]*")*)( /)?>')
ATTRIBUTE = re.compile(rb' ([-a-z]+)="([^"]*)"')
VOID = {b"br", b"hr", b"img", b"input"}
# the attributes of an element, in the order in which they stand
ATTRIBUTES = {b"a": [b"href", b"title", b"id", b"class", b"data-footnote-ref", b"data-footnote-backref", b"aria-label"], b"code": [b"class"], b"img": [b"src", b"alt", b"title"], b"ol": [b"start"], b"td": [b"align"], b"th": [b"align"]}
ATTRIBUTES[b"input"] = [b"type", b"checked", b"disabled"]
ATTRIBUTES |= {b"li": [b"id"], b"section": [b"class", b"data-footnotes"], b"sup": [b"class"]}
# attributes that an element must have, and those that have one value
GIVEN = {b"input": {b"type", b"disabled"}}
FIXED = {b"type": b"checkbox", b"checked": b"", b"disabled": b"", b"data-footnotes": b"", b"data-footnote-ref": b"", b"data-footnote-backref": b""}
# parts of tables by what they stand in, which holds line feeds and nothing else
PARTS = {b"tbody": {b"table"}, b"thead": {b"table"}, b"tr": {b"tbody", b"thead"}, b"td": {b"tr"}, b"th": {b"tr"}}
HOLD_PARTS = {b"table", b"tbody", b"thead", b"tr"}
# elements of text, which stand where text does; the others stand among blocks, and `li` in lists
PHRASES = {b"a", b"br", b"code", b"del", b"em", b"img", b"input", b"strong", b"sup"}
LISTS = {b"ol", b"ul"}
HOLD_BLOCKS = {b"blockquote", b"li", b"section"}
ADDRESS = re.compile(rb"[-_.+!*(),%#@?=;:/$~&'A-Za-z0-9]*")
SCHEME = re.compile(rb"([^:/?#]*):")
SCHEMES = {b"href": {b"http", b"https", b"irc", b"ircs", b"mailto", b"xmpp"}, b"src": {b"http", b"https"}}
LANGUAGE = re.compile(rb"language-[^ \t\n\f\r]*")
NOTE_CLASSES = {b"footnotes", b"footnote-ref", b"footnote-backref"}
ID = re.compile(rb"user-content-[-A-Za-z0-9]*")


def undone(value):
    """A value as a browser reads it."""
    return ENTITY.sub(lambda it: ENTITIES[it[1]], value)


def value_fault(element, name, value):
    """What is wrong with the value of an attribute of an element; None if nothing is."""
    if name == b"start":
        return None if re.fullmatch(rb"[0-9]*", value) else "no digits"
    if name in FIXED:
        return None if value == FIXED[name] else "another value"
    if name == b"align":
        return None if value in {b"left", b"center", b"right"} else "no alignment"
    if not TEXT.fullmatch(value):
        return "no text"
    if name == b"class" and element == b"code" and not LANGUAGE.fullmatch(value):
        return "no language"
    if name == b"class" and element != b"code" and value not in NOTE_CLASSES:
        return "no class of footnotes"
    if name == b"id" and not ID.fullmatch(value):
        return "no id"
    if name in SCHEMES:
        address = undone(value)
        if not ADDRESS.fullmatch(address):
            return "no address"
        scheme = SCHEME.match(address)
        if scheme and scheme[1].lower() not in SCHEMES[name]:
            return "the scheme"
    return None


def attributes_fault(name, attributes):
    """What is wrong with the attributes of an element; None if nothing is."""
    left = list(ATTRIBUTES.get(name, []))
    lacking = GIVEN.get(name, set()) - {attribute for attribute, _ in ATTRIBUTE.findall(attributes)}
    if lacking:
        return f"no {lacking}"
    for attribute, value in ATTRIBUTE.findall(attributes):
        if attribute not in left:
            return f"an attribute {attribute!r} here"
        del left[: left.index(attribute) + 1]
        if fault := value_fault(name, attribute, value):
            return f"{fault} in {attribute!r}"
    return None


def may_stand(name, tags):
    """Whether an element may stand behind these open tags."""
    if name == b"li":
        return bool(tags) and tags[-1] in LISTS
    if name in PARTS:
        return bool(tags) and tags[-1] in PARTS[name]
    if name in PHRASES:
        return not tags or tags[-1] not in HOLD_PARTS
    return not tags or tags[-1] in HOLD_BLOCKS


def tag_fault(tag, tags):
    """What is wrong with a tag behind these open tags; None if nothing is. Opens or closes it."""
    slash, name, attributes, end = tag.groups()
    if slash:
        return None if not attributes and not end and tags and tags.pop() == name else "it closes another"
    if bool(end) != (name in VOID):
        return "void or not"
    if not may_stand(name, tags):
        return f"it stands behind {tags[-1:]}"
    if not end:
        tags.append(name)
    return attributes_fault(name, attributes)


def fault_of(html):
    """Why bytes are no safe HTML; None if they are."""
    at, tags = 0, []
    while at < len(html):
        start, at = at, TEXT.match(html, at).end()
        if tags and tags[-1] in HOLD_PARTS and html[start:at].strip(b"\n"):
            return f"byte {start}: text in {tags[-1]!r}"
        if at == len(html):
            break
        tag = TAG.match(html, at)
        if not tag:
            return f"byte {at}: {html[at : at + 40]!r}"
        if fault := tag_fault(tag, tags):
            return f"byte {at}: {tag[0]!r}: {fault}"
        at = tag.end()
    return f"open: {tags}" if tags else None


# ---- attacks

PAYLOADS = ["javascript:alert(1)", "JaVaScRiPt:alert(1)", "java\tscript:alert(1)", "java&Tab;script:alert(1)", "java&NewLine;script:alert(1)"]
PAYLOADS += ["javascript&colon;alert(1)", "&#106;avascript:alert(1)", "&#x6A;avascript&#58;alert(1)", "&#0000106&#0000097", "\x01javascript:alert(1)"]
PAYLOADS += ["&#1;javascript:alert(1)", "javascript\0:alert(1)", "java\\script:alert(1)", "vbscript:msgbox(1)", "data:text/html,<script>alert(1)</script>"]
PAYLOADS += ["data:text/html;base64,PHNjcmlwdD4=", "data:image/svg+xml,<svg onload=alert(1)>", "file:///etc/passwd", "feed:javascript:alert(1)", "view-source:x"]
PAYLOADS += ["jar:x", "livescript:a", " javascript:alert(1)", "&nbsp;javascript:alert(1)", "&#x202e;javascript:a", "javascript&#x3A;alert(1)"]
PAYLOADS += ["%6Aavascript:alert(1)", "javascript%3Aalert(1)", 'http:"onmouseover=alert(1)', "http://a'onmouseover='alert(1)", 'http://a" onmouseover="alert(1)']
PAYLOADS += ["x`onerror=alert(1)", "//evil", "\\\\evil", ":javascript:a", "&Tab;javascript:a", "ｊavascript:a", "javascript：a", "&#27;$B", "\x1b$B"]
PAYLOADS += ["javascript:/*--></title></style></textarea></script><svg/onload=alert(1)>", "&amp;#106;avascript:a", "a;ng-init:alert(1)", "a&#12;b", "</code></pre><script>"]
PLACES = ["[a](@)", "[a](<@>)", "![a](@)", '![a](<@> "@")', "[a]\n\n[a]: @", "[a]\n\n[a]: <@> '@'", "<@>", "```@\n@", "~~~ @ @\n@", "![@](x)", "[![@](@)](@)"]
PLACES += ["# @", "@", "    @", "`@`", "> - @", "1. @", "[@]", "[@]: /x\n\n[@]", "\\@", "*@*", "a\n@", "- [x] @", "a|b\n-|:-\n@|[c](@)", "|@|\n|:-|"]
ALONE = ["<script>alert(1)</script>", "<img src=x onerror=alert(1)>", 'a <b onclick="x">c</b>', "<!-- --><script>", "<![CDATA[ <script> ]]>", "<?php <script> ?>"]
ALONE += ['![" onerror="alert(1)](x)', '![a](x "\\" onerror=\\"alert(1)")', "[a](x '\" onerror=\"alert(1)')", '~~~ " onclick="a\nx\n~~~', "```&quot;onclick=a\n"]
ALONE += ["&lt;script&gt;", "&amp;lt;", "\\<script>", "`<script>`", '<a href="javascript:x">y</a>', '<x@y.z"onclick=a>', '<http://a"onclick=b>', "<http://a.b/?q='><c>"]
ALONE += ["</p><script>", "- <script>\n  </script>", "> <svg/onload=a>", "[<http://a.b> c](u)", "![\x1b$B](x)\x1b(B![](a/onerror=alert(1)//)", "<em />", "<li>", "</div></div>"]
ALONE += ["- a\n\n      # b\n", "1. - > # a", "[a [b](c) d](e)", "![a ![b](c) d](e)", "[![a](b)](c)", "\xff\xfe<\0s\0c\0r\0i\0p\0t\0>\0", ">" * 200 + "a", "- " * 200 + "a", "*" * 99 + "a" + "*" * 99]
MARKS = ["|", "|-|\n", "a\n:-\n", "- [x] ", "~~", "www.", "<", ">", '"', "'", "&", "`", "\n", "\n\n", "[", "](", ")", "![", "- ", "> ", "    ", "```", "*", "**", "\\", "\0", "\x1b$B", ":", "[a]: ", "<a>", "=", "1. ", "# ", "\t", ";", "]"]


def attacks():
    """The documents of payloads in places, and those by themselves."""
    placed = [place.replace("@", payload) for payload in PAYLOADS for place in PLACES]
    return [it.encode("utf-8", "surrogateescape") for it in placed + ALONE]


def random_attacks(count, seed):
    """Yields random documents of parts of attacks and marks, and of bytes that are no UTF-8."""
    generator = random.Random(seed)
    parts = attacks() + [it.encode() for it in MARKS] * 20 + [b"\xff", b"\xc3"] * 20
    for _ in range(count):
        yield b"".join(generator.choice(parts) for _ in range(generator.randint(1, 12)))


class Options(ctypes.Structure):
    """`struct limecove_html_options` of `bindings/limecove.h`."""

    _fields_ = [("size", ctypes.c_size_t), ("tab_size", ctypes.c_size_t), ("constructs", ctypes.c_uint64), ("allow", ctypes.c_uint64)]


class Answer(ctypes.Structure):
    """`struct limecove_answer` of `bindings/limecove.h`."""

    _fields_ = [("code", ctypes.c_uint32), ("version", ctypes.c_uint32), ("count", ctypes.c_size_t)]


class Library:
    """The C library, with default options, which let nothing through."""

    COMMONMARK, HTML_CONSTRUCTS, VERSION = 1048575, 16777215, 4

    def __init__(self, path, gfm):
        library = ctypes.CDLL(os.path.abspath(path))
        if library.limecove_version() != self.VERSION:
            sys.exit(f"{path} has another version than {self.VERSION}")
        self.call = library.limecove_html
        self.call.argtypes = [ctypes.c_char_p, ctypes.c_size_t, ctypes.POINTER(Options), ctypes.c_char_p, ctypes.c_size_t]
        self.call.restype = Answer
        self.options = Options(ctypes.sizeof(Options), 0, self.HTML_CONSTRUCTS if gfm else self.COMMONMARK, 0)
        self.room = ctypes.create_string_buffer(1 << 16)

    def fault(self, document):
        """Why the HTML of a document is not safe; None if it is."""
        answer = self.call(document, len(document), ctypes.byref(self.options), self.room, len(self.room))
        if answer.code == 0 and answer.count > len(self.room):
            self.room = ctypes.create_string_buffer(answer.count)
            return self.fault(document)
        return fault_of(self.room.raw[: answer.count]) if answer.code == 0 else f"code {answer.code}"


class Program:
    """A program that writes HTML."""

    def __init__(self, path):
        self.path = path

    def fault(self, document):
        """Why the HTML of a document is not safe; None if it is."""
        ran = subprocess.run([self.path], input=document, capture_output=True, check=False)
        return fault_of(ran.stdout) if ran.returncode == 0 else f"status {ran.returncode}: {ran.stderr!r}"


def is_one_unsafe(name, documents, written):
    """Checks documents. Returns whether the HTML of one is not safe."""
    count, faults = 0, []
    for document in documents:
        count += 1
        if fault := written.fault(document):
            faults.append((document, fault))
    print(f"{name}: {count - len(faults)} of {count} are safe", flush=True)
    for document, fault in faults[:20]:
        print(f"  {document[:200]!r}: {fault}")
    return bool(faults)


# ---- the self-test

TAKEN = [b"", b"a'b=`/", b"&amp;&lt;&gt;&quot;&#x27;&#x1B;", b"<p></p>", b"<p>a<br />b</p>\n", b"<hr />", b'<a href="">b</a>', b'<a title="">b</a>', b"<a>b</a>", b"<img />"]
TAKEN += [b'<a href="http://a/?b&amp;c&#x27;" title="&quot;">d</a>', b'<a href="HTTPS:a">b</a>', b'<a href="//a">b</a>', b'<a href="/a:b">c</a>', b'<a href="?a:b">c</a>']
TAKEN += [b'<img src="a.png" alt="" title="b" />', b"<ul><li>a</li></ul>", b"<ol start=\"007\"><li><p>a</p></li></ol>", b'<ol start=""></ol>', b"<ul>a</ul>"]
TAKEN += [b'<pre><code class="language-a;&amp;&quot;">b</code></pre>', b"<em><a><a>b</a></a></em>", b"<blockquote><h1>a</h1></blockquote>", b"\xff\x80", b"<em><code><img /></code></em>"]
TAKEN += [b"<p><del>a <em>b</em></del></p>", b'<del><a href="mailto:b@c.d">e</a></del>']
TAKEN += [b'<table>\n<thead><tr>\n<th align="left">a <em>b</em></th><th></th></tr></thead><tbody><tr><td align="center">c</td></tr></tbody></table>', b"<table></table>"]
REFUSED = [b"<script>", b"<script></script>", b"<em />", b"<a />", b"<li>a</li>", b"<p><li>a</li></p>", b"<p>", b"</p>", b"<p></em>", b"<em><p></p></em>", b"<p><p></p></p>"]
REFUSED += [b"<br>", b"<br></br>", b"<p />", b"<P></P>", b"<p onclick=\"x\"></p>", b"<p title=\"x\"></p>", b"<a href=x></a>", b"<a href='x'></a>", b'<a title="a" b"></a>']
REFUSED += [b'<a href="javascript:x">y</a>', b'<a href=":x">y</a>', b'<img src="mailto:a" />', b'<a href="data:x">y</a>', b'<a href="java&#x27;script:x">y</a>', b'<a href="a b">c</a>']
REFUSED += [b'<a href="a\\b">c</a>', b'<a href="\xc3\xa9">c</a>', b'<a href="&lt;">c</a>', b'<a href="&colon;">c</a>', b"&#60;", b"&", b"&amp", b"<", b">", b'"', b"\0", b"\x1b", b"<!-- -->"]
REFUSED += [b'<a title="" href="">b</a>', b'<a href="" href="">b</a>', b'<code class="x">a</code>', b'<code class="language-a b">c</code>', b'<em class="language-a">b</em>', b"<h1><h2></h2></h1>"]
REFUSED += [b'<ol start="-1"></ol>', b'<ol start="1&amp;"></ol>', b'<ul start="1"></ul>', b"<p >a</p>", b"<p>a</p >", b'<a  href="">b</a>', b'<img alt="<" />', b"<div></div>", b"<h7></h7>"]
REFUSED += [b"<td></td>", b"<tr></tr>", b"<thead></thead>", b"<table><tr></tr></table>", b"<table>a</table>", b"<table> </table>", b"<table><em></em></table>"]
REFUSED += [b"<table><thead>a</thead></table>", b"<p><table></table></p>", b'<table><tbody><tr><td align="x"></td></tr></tbody></table>', b'<table align="left"></table>']
REFUSED += [b"<table><tbody><tr><td><p></p></td></tr></tbody></table>"]
REFUSED += [b'<del cite="">a</del>', b'<del title="a">b</del>', b"<del />", b"<del>", b"<del><p></p></del>", b"<del><em></del></em>"]


TAKEN += [b'<input type="checkbox" disabled="" />', b'<ul><li><input type="checkbox" checked="" disabled="" /> a</li></ul>']
REFUSED += [b'<input />', b'<input type="checkbox" />', b'<input type="image" disabled="" />', b'<input disabled="" type="checkbox" />', b'<input type="checkbox" disabled="" src="a" />']
REFUSED += [b'<table><input type="checkbox" disabled="" /></table>', b'<input type="checkbox" disabled="">']


def self_test():
    """The strings by hand. Returns whether one is wrong."""
    wrong = [f"{it!r} is refused: {fault_of(it)}" for it in TAKEN if fault_of(it)] + [f"{it!r} is taken" for it in REFUSED if not fault_of(it)]
    print("".join(f"{it}\n" for it in wrong), end="")
    return bool(wrong)


def main():
    parser = usage.Words(__doc__)
    parser.add_argument("program", nargs="?")
    parser.add_argument("--spec")
    parser.add_argument("--real")
    parser.add_argument("--random", type=int, default=0)
    parser.add_argument("--seed", type=int, default=1)
    parser.add_argument("--gfm", action="store_true")
    parser.add_argument("--self-test", action="store_true")
    words = parser.parse_args()
    if words.self_test:
        sys.exit(self_test())
    if not words.program:
        parser.error("PROGRAM is needed, or --self-test")
    is_library = words.program.endswith(".so")
    if words.gfm and not is_library:
        parser.error("--gfm is for the library")
    written = Library(words.program, words.gfm) if is_library else Program(words.program)
    failed = [is_one_unsafe("attacks", attacks(), written)]
    if words.spec:
        with open(words.spec, encoding="utf-8") as file:
            failed.append(is_one_unsafe("examples", [it["markdown"].encode() for it in json.load(file)], written))
    if words.real:
        documents = []
        for path in real_files.files_in(words.real):
            with open(path, "rb") as it:
                documents.append(it.read())
        failed.append(is_one_unsafe("real files", documents, written))
    if words.random:
        failed.append(is_one_unsafe("random attacks", random_attacks(words.random, words.seed), written))
    sys.exit(any(failed))


if __name__ == "__main__":
    main()
