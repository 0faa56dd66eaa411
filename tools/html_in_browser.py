#!/usr/bin/env python3
"""Checks that a browser makes of what the program `mdhtml` writes with default options the tree that is written: in `div`, `section`, `li` and `td`
the elements, attributes and texts are those that stand there, in that order; what is behind the HTML stays where it is; there is no script, and each
address has a protocol that is allowed, as the browser reads it. The documents are those of `tools/safe_html.py`.

A link in a link, which comes of an autolink in the text of a link, is what a browser ends before: such documents are counted apart, and only scripts,
names and protocols are looked at.

The status is 1 if a document is read otherwise; it is shown. It needs Chromium (Debian's package `chromium`).

usage: tools/html_in_browser.py PROGRAM [--spec SPEC] [--random COUNT] [--seed S] [--browser NAME]
  PROGRAM         mdhtml, or what writes HTML as it does
  --spec SPEC     a spec.json, whose examples are documents too. tools/commonmark.py says where there is one
  --random COUNT  so many random documents, of parts of attacks and marks
  --seed S        the seed of the first one; without it, 1
  --browser NAME  the browser's program; without it, chromium
"""

import html
import json
import os
import re
import subprocess
import sys
import tempfile

sys.path.insert(0, os.path.dirname(os.path.realpath(__file__)))
sys.dont_write_bytecode = True
import safe_html  # noqa: E402
import usage  # noqa: E402

# what stands around the HTML in a page, and behind it
AROUND = {
    "div": ('<div id="box">', '</div><p id="after">x</p>'),
    "section": ('<div><section id="box">', '</section><b id="after">x</b></div>'),
    "li": ('<ul><li id="box">', '</li><li id="after">x</li></ul>'),
    "td": ('<table><tbody><tr><td id="box">', '</td><td id="after">x</td></tr></tbody></table>'),
}
MANY = 250  # documents a page

# The page reads each text as a document, and shows the trees that it finds: a text, or a list of name, attributes and children
PAGE = """<!doctype html><meta charset="utf-8"><pre id="out"></pre><script id="data" type="application/json">%s</script><script>
const tree = (node) => {
  const all = [];
  for (const it of node.childNodes) {
    if (it.nodeType === 3) all.push(it.data);
    else if (it.nodeType !== 1) all.push(["#" + it.nodeType, {}, []]);
    else {
      const named = {};
      for (const a of it.attributes) named[a.name] = a.value;
      all.push([it.localName, named, tree(it)]);
    }
  }
  return all;
};
const schemes = (doc) => [
  ...[...doc.querySelectorAll("a[href]")].map((it) => "href " + new URL(it.getAttribute("href"), "https://page.test/").protocol),
  ...[...doc.querySelectorAll("img[src]")].map((it) => "src " + new URL(it.getAttribute("src"), "https://page.test/").protocol),
];
const tried = (f) => { try { return f(); } catch (e) { return ["no address"]; } };
const out = JSON.parse(document.getElementById("data").textContent).map((text) => {
  const doc = new DOMParser().parseFromString(text, "text/html");
  const box = doc.getElementById("box"), after = doc.getElementById("after");
  return {
    behind: !!box && !!after && box.nextSibling === after && after.textContent === "x" && doc.querySelectorAll("#after").length === 1,
    scripts: doc.querySelectorAll("script, style, iframe, object, embed, svg, math, base, link, form").length,
    schemes: tried(() => schemes(doc)),
    tree: box ? tree(box) : null,
  };
});
document.getElementById("out").textContent = JSON.stringify(out);
</script>"""


def text_of(written):
    """A text as a browser reads it."""
    return re.sub(r"\r\n?", "\n", safe_html.undone(written.encode()).decode())


def tree_of(written):
    """The tree that is written, as the page shows one. The HTML is safe, so each tag is closed."""
    top = []
    levels = [top]
    for part in re.split(r"(<[^>]*>)", written):
        here = levels[-1]
        if not part.startswith("<"):
            if part and here and isinstance(here[-1], str):
                here[-1] += text_of(part)
            elif part:
                here.append(text_of(part))
        elif part.startswith("</"):
            levels.pop()
        else:
            name = re.match(r"<(\w+)", part)[1]
            named = {it: text_of(value) for it, value in re.findall(r' ([a-z]+)="([^"]*)"', part)}
            here.append([name, named, []])
            if not part.endswith("/>"):
                levels.append(here[-1][2])
    return top


def has_link_in_link(tree, inside=False):
    """Whether a link is in a link."""
    return any(isinstance(it, list) and (inside and it[0] == "a" or has_link_in_link(it[2], inside or it[0] == "a")) for it in tree)


def read_by(browser, texts):
    """What the browser finds in each text."""
    with tempfile.TemporaryDirectory() as room:
        with open(f"{room}/page.html", "w", encoding="utf-8") as it:
            it.write(PAGE % json.dumps(texts).replace("<", "\\u003c"))
        words = [browser, "--headless", "--no-sandbox", "--disable-gpu", f"--user-data-dir={room}/user", "--virtual-time-budget=60000", "--dump-dom"]
        ran = subprocess.run([*words, f"file://{room}/page.html"], capture_output=True, check=True, timeout=300)
    found = re.search(r'<pre id="out">(.*?)</pre>', ran.stdout.decode(), re.S)
    return json.loads(html.unescape(found[1]))


def fault_of(found, tree, is_nested):
    """What a browser finds otherwise; None if nothing."""
    allowed = {f"{at} {scheme.decode()}:" for at, schemes in (("href", safe_html.SCHEMES[b"href"]), ("src", safe_html.SCHEMES[b"src"])) for scheme in schemes}
    if found["scripts"]:
        return "a script, or its like"
    if set(found["schemes"]) - allowed - {"no address"}:
        return f"a protocol: {found['schemes']}"
    if is_nested:
        return None
    if not found["behind"]:
        return "what is behind has moved"
    return None if found["tree"] == tree else f"the tree {json.dumps(found['tree'])[:300]}"


def main():
    parser = usage.Words(__doc__)
    parser.add_argument("program")
    parser.add_argument("--spec")
    parser.add_argument("--random", type=int, default=0)
    parser.add_argument("--seed", type=int, default=1)
    parser.add_argument("--browser", default="chromium")
    words = parser.parse_args()
    documents = safe_html.attacks() + list(safe_html.random_attacks(words.random, words.seed))
    if words.spec:
        with open(words.spec, encoding="utf-8") as file:
            documents += [it["markdown"].encode() for it in json.load(file)]
    written = []
    for document in documents:
        ran = subprocess.run([words.program], input=document, capture_output=True, check=True)
        written.append(ran.stdout.decode("utf-8", "replace"))
    trees = [tree_of(it) for it in written]
    nested = [has_link_in_link(it) for it in trees]
    failed = False
    for name, (before, behind) in AROUND.items():
        faults = []
        for at in range(0, len(written), MANY):
            texts = [f"<!doctype html><body>{before}{it}{behind}" for it in written[at : at + MANY]]
            for i, found in enumerate(read_by(words.browser, texts), at):
                if fault := fault_of(found, trees[i], nested[i]):
                    faults.append((documents[i], fault))
        print(f"in {name}: {len(documents) - len(faults)} of {len(documents)} as written, {sum(nested)} of these with a link in a link", flush=True)
        for document, fault in faults[:10]:
            print(f"  {document[:200]!r}: {fault}")
        failed |= bool(faults)
    sys.exit(failed)


if __name__ == "__main__":
    main()
