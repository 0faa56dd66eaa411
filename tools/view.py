#!/usr/bin/env python3
"""Writes one HTML page that shows a document with its spans: each is coloured, and its name and places show where the pointer is. Beside
them it shows the document's HTML, if --html says what writes it. The page needs no network.

usage: tools/view.py FILE [--program PROGRAM] [--html PROGRAM] [--machine NAME] [--tab N] [-o PAGE]
       tools/view.py --self-test
  FILE               the document
  --program PROGRAM  mdevents, or what prints events as it does; without it, crates/mdevents/out/mdevents of this checkout
  --html PROGRAM     mdhtml, as crates/mdhtml/out/mdhtml: its HTML is shown as a page, in a frame that runs nothing, and as text
  --machine NAME     the machine that reads the document; without it, document
  --tab N            columns between tab stops; without it, 4
  -o PAGE            where the page goes; without it, to FILE with .html behind it
  --self-test        pages of a few documents, with events that are written by hand: each shows all of its document. No program

The page knows no Markdown: it has the names and places of printed events, and the bytes between places. A tab that lies in two spans is
shown column by column. Bytes that are no UTF-8 are shown as U+FFFD.

Status 0: the page is written, or the self-test passed. Status 1: a program or a file failed. Status 2: it was called wrongly.
"""

import colorsys
import html
import os
import re
import subprocess
import sys

sys.dont_write_bytecode = True
import usage  # noqa: E402

HERE = os.path.dirname(os.path.dirname(os.path.realpath(__file__)))
EVENT = re.compile(r"(enter|exit) (\w+) (\d+):(\d+) \((\d+)\+(\d+)\)")

STYLE = """
:root { color-scheme: light dark; }
body { margin: 0; display: grid; grid-template: auto 1fr / 1fr 21em; height: 100vh; font: 15px/1.5 system-ui, sans-serif; }
header { grid-column: 1 / 3; padding: .6em 1em; border-bottom: 1px solid #8886; }
header b { font-weight: 600; }
/* a height of its own: what is pointed at stays under the pointer */
#path { height: 3.1em; overflow: auto; }
#path span { padding: 0 .35em; border-radius: .25em; }
#path i { opacity: .6; font-style: normal; }
main { overflow: auto; padding: 1em; font: 14px/1.75 ui-monospace, monospace; white-space: pre-wrap; overflow-wrap: anywhere; }
.two { grid-template-columns: 1fr 1fr 15em; }
.two header { grid-column: 1 / 4; }
section { display: flex; flex-direction: column; min-height: 0; min-width: 0; border-left: 1px solid #8886; }
section label { padding: .4em 1em; font-size: 13px; border-bottom: 1px solid #8886; }
section iframe { flex: 1; border: 0; background: #fff; color-scheme: light; }
section pre { flex: 1; display: none; margin: 0; padding: 1em; overflow: auto; font: 13px/1.6 ui-monospace, monospace; white-space: pre-wrap; overflow-wrap: anywhere; }
section:has(input:checked) iframe { display: none; }
section:has(input:checked) pre { display: block; }
aside { overflow: auto; padding: .8em 1em; border-left: 1px solid #8886; font-size: 13px; }
aside label { display: flex; gap: .5em; align-items: center; cursor: pointer; }
aside label span { overflow: hidden; text-overflow: ellipsis; }
aside output { margin-left: auto; opacity: .6; }
main span { border-radius: 2px; }
main .on { outline: 2px solid currentColor; outline-offset: -1px; }
main .white { opacity: .45; }
"""

SCRIPT = """
const path = document.getElementById("path"), main = document.querySelector("main");
const chain = span => { const all = []; for (; span && span !== main; span = span.parentElement) if (span.dataset.n) all.unshift(span); return all; };
let shown = null;
const show = span => {
  if (shown) shown.classList.remove("on");
  shown = span;
  if (!span) { path.textContent = "Point at the document."; return; }
  span.classList.add("on");
  path.replaceChildren(...chain(span).flatMap(it => {
    const name = document.createElement("span"), place = document.createElement("i");
    name.className = "c-" + it.dataset.n; name.textContent = it.dataset.n; place.textContent = " " + it.dataset.p + "  ";
    return [name, place];
  }));
  // what does not fit is that of the outer spans
  path.scrollTop = path.scrollHeight;
};
main.addEventListener("pointerover", e => show(e.target.closest("[data-n]")));
main.addEventListener("pointerleave", () => show(null));
for (const box of document.querySelectorAll("aside input")) box.addEventListener("change", () => {
  const sheet = document.getElementById("off");
  sheet.textContent = [...document.querySelectorAll("aside input:not(:checked)")].map(it => "main .c-" + it.value + "{background:none;box-shadow:none}").join("");
});
show(null);
"""


def events_of(printed):
    """The events as the program prints them: kind, name, line and column, index and number in a tab."""
    events = []
    for line in printed.splitlines():
        event = EVENT.fullmatch(line)
        if not event:
            sys.exit(f"view: no event: {line}")
        events.append((event[1], event[2], (int(event[3]), int(event[4])), (int(event[5]), int(event[6]))))
    return events


def columns_of(document, tab):
    """For each byte, how many columns it takes: a tab goes on to the next tab stop."""
    columns, column = [], 0
    for byte in document:
        width = tab - column % tab if byte == 9 else 1
        columns.append(width)
        column = 0 if byte in (10, 13) else column + width
    return columns


def shown(document, columns, start, end):
    """The HTML of what is between two places. Of a tab that a place lies in, the columns on this side of it."""
    (index, vs), (last, last_vs) = start, end
    parts, text = [], bytearray()

    def flush():
        if text:
            parts.append(html.escape(text.decode("utf-8", "replace"), quote=False))
            text.clear()

    while (index, vs) < (last, last_vs):
        byte = document[index]
        if byte == 9:
            flush()
            to = min(columns[index], last_vs if index == last else columns[index])
            first = "→" if vs == 0 else " "
            parts.append(f'<span class="white">{first}{" " * (to - vs - 1)}</span>')
            if index == last:
                break
        elif byte in (10, 13):
            flush()
            if byte == 10 or document[index + 1 : index + 2] != b"\n":
                parts.append('<span class="white">↵</span>\n')
        else:
            text.append(byte)
        index, vs = index + 1, 0
    flush()
    return "".join(parts)


def colour(name, names):
    """A colour of a name's own, which text stays readable on."""
    hue = sorted(names).index(name) * 0.618034 % 1
    red, green, blue = (round(255 * part) for part in colorsys.hls_to_rgb(hue, 0.55, 0.75))
    return f"rgb({red} {green} {blue} / 22%)"


def beside(written):
    """The part of a page that shows HTML: as a page, in a frame that runs no script and sends nothing, and as text."""
    if written is None:
        return ""
    text = written.decode("utf-8", "replace")
    framed = f"<!doctype html><meta charset=utf-8><base target=_blank><style>body{{font:15px/1.5 system-ui,sans-serif;padding:0 1em}}</style>{text}"
    return f"""<section><label><input type="checkbox"> its HTML as text</label><iframe sandbox title="HTML" srcdoc="{html.escape(framed)}"></iframe><pre>{html.escape(text, quote=False)}</pre></section>
"""


def page(title, document, events, tab, written=None):
    """The page of a document and its events, and of its HTML."""
    columns = columns_of(document, tab)
    counts, body, at, waiting = {}, [], (0, 0), []
    ends = {}
    for number, (kind, name, where, place) in enumerate(events):
        if kind == "enter":
            waiting.append(number)
            counts[name] = counts.get(name, 0) + 1
        else:
            ends[waiting.pop()] = where
    for number, (kind, name, where, place) in enumerate(events):
        body.append(shown(document, columns, at, place))
        at = max(at, place)
        if kind == "enter":
            end = ends[number]
            body.append(f'<span class="c-{name}" data-n="{name}" data-p="{where[0]}:{where[1]} to {end[0]}:{end[1]}">')
        else:
            body.append("</span>")
    body.append(shown(document, columns, at, (len(document), 0)))
    style = "".join(f".c-{name} {{ background: {colour(name, counts)}; }}\n" for name in sorted(counts))
    legend = "".join(
        f'<label><input type="checkbox" value="{name}" checked><span class="c-{name}" title="{name}">{name}</span><output>{counts[name]:,}</output></label>\n'
        for name in sorted(counts)
    )
    return f"""<!doctype html>
<html lang="en">
<meta charset="utf-8">
<title>{html.escape(title)}</title>
<style>{STYLE}{style}</style>
<style id="off"></style>
<body{"" if written is None else ' class="two"'}>
<header><b>{html.escape(title)}</b>, {len(document):,} bytes, {len(events) // 2:,} spans<div id="path"></div></header>
<main>{"".join(body)}</main>
{beside(written)}<aside>{legend}</aside>
<script>{SCRIPT}</script>
</html>
"""


def text_of(made):
    """What the document's part of a page shows, as text."""
    body = made[made.index("<main>") + 6 : made.index("</main>")]
    return html.unescape(re.sub(r"<[^>]*>", "", body))


def self_test():
    """Shows documents whose events are written by hand; each is all there, in its spans."""
    made = page("one", b"a <b>\r\n\tc", events_of("enter Data 1:1 (0+0)\nexit Data 1:6 (5+0)\nenter SpaceOrTab 2:1 (7+0)\nexit SpaceOrTab 2:3 (7+2)\nenter Data 2:3 (7+2)\nexit Data 2:6 (9+0)"), 4)
    assert text_of(made) == "a <b>↵\n→   c", text_of(made)
    assert made.count('data-n="Data"') == 2 and 'data-p="2:3 to 2:6"' in made
    assert '<span class="white">→ </span></span>' in made, "a tab in two spans is shown in both"
    assert text_of(page("two", b"\xff", [], 4)) == "\ufffd"
    assert text_of(page("three", b"", [], 4)) == ""
    made = page("four", b"a <b>", [], 4, b'<p title="x">a &lt;b&gt;</p>\n')
    frame = re.search(r'<iframe sandbox title="HTML" srcdoc="([^"]*)">', made)
    assert html.unescape(frame[1]).endswith('<p title="x">a &lt;b&gt;</p>\n'), "the HTML is framed as it is"
    assert '<pre>&lt;p title="x"&gt;a &amp;lt;b&amp;gt;&lt;/p&gt;\n</pre>' in made, "and shown as text"
    assert text_of(made) == "a <b>" and '<body class="two">' in made
    assert "<iframe" not in page("five", b"", [], 4)
    print("view: well")


def run(program, document, *words):
    """What a program writes for a document. Ends with 1 if it fails."""
    try:
        ran = subprocess.run([program, *words], input=document, capture_output=True)
    except OSError as error:
        sys.exit(f"view: {program} does not start: {error.strerror}")
    if ran.returncode:
        sys.exit(f"view: {program} ended with {ran.returncode}: {ran.stderr.decode(errors='replace').strip()}")
    return ran.stdout


def main():
    words = usage.Words(__doc__)
    words.add_argument("file", nargs="?")
    words.add_argument("--program", default=f"{HERE}/crates/mdevents/out/mdevents")
    words.add_argument("--html")
    words.add_argument("--machine", default="document")
    words.add_argument("--tab", type=int, default=4)
    words.add_argument("-o", dest="page")
    words.add_argument("--self-test", action="store_true")
    given = words.parse_args()
    if given.self_test:
        self_test()
        return
    if not given.file:
        words.error("no FILE")
    if not 1 <= given.tab <= 16:
        words.error("--tab is 1 to 16")
    try:
        with open(given.file, "rb") as it:
            document = it.read()
    except OSError as error:
        sys.exit(f"view: {given.file}: {error.strerror}")
    if not os.path.isfile(given.program):
        sys.exit(f"view: {given.program} is not there: `rt run` in crates/mdevents builds it, or name another by --program")
    tab = ["--tab", str(given.tab)]
    events = events_of(run(given.program, document, "--deep", "--machine", given.machine, *tab).decode())
    written = run(given.html, document, *tab) if given.html else None
    where = given.page or f"{given.file}.html"
    with open(where, "w", encoding="utf-8") as it:
        it.write(page(os.path.basename(given.file), document, events, given.tab, written))
    print(where)


if __name__ == "__main__":
    main()
