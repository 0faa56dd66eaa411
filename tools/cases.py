#!/usr/bin/env python3
"""Holds crates/mdcases/stdin and stdout: the cases of crates/mdcases/data/*.txt as the program reads them, and what it must write.

usage: tools/cases.py           says what is not as the cases have it, and ends with 1 if something is not. tools/docs.py does so too
       tools/cases.py --write   writes both files
       tools/cases.py --differ FILE    FILE is what the program wrote: shows each case whose answer is another one

A line of a file of cases is one of these, or blank:
  > WORDS    how the cases below are read: the form of the events (`spans`, `points`, `lines`), and arguments of `mdevents`, or
             `inline-text`, or `text`
  # TEXT     a comment on the case below
  | LINE     a line of its document; `|` is an empty one. No line ending is behind the last. `%09` is a tab, and so on: a percent sign is
             always followed by two hexadecimal digits in capitals
  = EVENTS   its events. Lines are joined by a space, but in the form `lines`. Other characters than ASCII may be typed as they are
"""

import glob
import os
import re
import sys

sys.dont_write_bytecode = True
import usage  # noqa: E402

TOP = os.path.dirname(os.path.dirname(os.path.realpath(__file__)))
FOLDER = f"{TOP}/crates/mdcases"


def escaped(text):
    """Returns a text with each byte beyond ASCII, and a space at its end, as a percent sign and two digits."""
    text = "".join(c if c.isascii() else "".join(f"%{byte:02X}" for byte in c.encode()) for c in text)
    return re.sub(r" $", "%20", text)


class Case:
    """A case: the place where it stands, and its lines by their marks."""

    def __init__(self, place, head):
        self.place, self.head, self.document, self.events = place, head, [], []

    def line(self):
        """Returns its line in the input."""
        return f"{self.head}|" + escaped("%0A".join(self.document))

    def answer(self):
        """Returns what must be written below its line."""
        if self.head.startswith("lines"):
            return "\n".join(self.events)
        return escaped(" ".join(self.events))

    def faults(self):
        """Yields what is wrong with it."""
        if not self.head.startswith(("spans", "points", "lines")):
            yield f"{self.place}: no head"
        if not self.document or not self.events:
            yield f"{self.place}: a case has a document and events"
        if re.search(r"%(?![0-9A-F]{2})", self.line() + "".join(self.events)) or "\t" in self.line():
            yield f"{self.place}: a percent sign has two digits in capitals behind it, and a tab is %09"


def cases():
    """Returns the cases of all files, and what is wrong with these."""
    found, failed = [], []
    for path in sorted(glob.glob(f"{FOLDER}/data/*.txt")):
        head, case = "", None
        with open(path, encoding="utf-8", newline="\n") as it:
            lines = it.read().split("\n")
        for number, line in enumerate(lines, 1):
            place = f"{os.path.relpath(path, TOP)}:{number}"
            mark, text = line[:1], line[2:]
            if line[1:2] not in ("", " ") or mark not in ("", ">", "#", "|", "="):
                failed.append(f"{place}: what line is this?")
            elif mark == ">":
                head = text.strip()
            elif mark == "|":
                if case is None or case.events:
                    case = Case(place, head)
                    found.append(case)
                case.document.append(text)
            elif mark == "=":
                if case is None:
                    failed.append(f"{place}: events of no document")
                else:
                    case.events.append(text.strip())
    return found, failed + [fault for case in found for fault in case.faults()]


def texts():
    """Returns the input and the output, and what is wrong with the cases."""
    found, failed = cases()
    given = "".join(f"{case.line()}\n" for case in found)
    written = "".join(f"{case.line()}\n{case.answer()}\n" for case in found)
    return {"stdin": given, "stdout": written}, failed


def disagreements():
    """Returns what is wrong with the cases, and which file is not as they have it."""
    wanted, failed = texts()
    for name, text in wanted.items():
        try:
            with open(f"{FOLDER}/{name}", encoding="utf-8", newline="\n") as it:
                is_same = it.read() == text
        except OSError:
            is_same = False
        failed += [] if is_same else [f"crates/mdcases/{name}: not what tools/cases.py --write writes"]
    return failed


def differ(path):
    """Shows the cases whose answers in a file are others."""
    with open(path, encoding="utf-8", errors="replace") as it:
        written = it.read().split("\n")
    at = 0
    for case in cases()[0]:
        while at < len(written) and written[at] != case.line():
            at += 1
        end = at + 1
        while end < len(written) and written[end] and not re.match(r"(spans|points|lines)\b[^\[]*\|", written[end]):
            end += 1
        answer = "\n".join(written[at + 1 : end])
        if answer != case.answer():
            print(f"{case.place}: {case.line()}\n  must be {case.answer()}\n  is      {answer}")


def main():
    parser = usage.Words(__doc__)
    parser.add_argument("--write", action="store_true")
    parser.add_argument("--differ", metavar="FILE")
    given = parser.parse_args()
    if given.differ:
        return differ(given.differ)
    if given.write:
        for name, text in texts()[0].items():
            with open(f"{FOLDER}/{name}", "w", encoding="utf-8", newline="\n") as it:
                it.write(text)
    failed = disagreements()
    print("\n".join(failed), end="\n" if failed else "")
    sys.exit(1 if failed else 0)


if __name__ == "__main__":
    main()
