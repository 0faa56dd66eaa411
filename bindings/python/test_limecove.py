#!/usr/bin/env python3
"""Tests limecove.py with the library that it finds. usage: test_limecove.py   (LIMECOVE_LIB names the folder of liblimecove.so)"""

import ctypes
import doctest
import sys
import threading
import unittest

if sys.argv[1:] == ["--help"]:  # before the library is looked for
    print(__doc__)
    sys.exit()
import limecove  # noqa: E402

NO_INDEX = ctypes.c_size_t(-1).value


class Calls(unittest.TestCase):
    def test_events_are_those_of_the_document(self):
        found = [str(it) for it in limecove.events(b"# a\r\n")]
        wanted = [
            "enter HeadingAtx 1:1 (0+0)",
            "enter HeadingAtxSequence 1:1 (0+0)",
            "exit HeadingAtxSequence 1:2 (1+0)",
            "enter SpaceOrTab 1:2 (1+0)",
            "exit SpaceOrTab 1:3 (2+0)",
            "enter HeadingAtxText 1:3 (2+0)",
            "enter Data 1:3 (2+0)",
            "exit Data 1:4 (3+0)",
            "exit HeadingAtxText 1:4 (3+0)",
            "exit HeadingAtx 1:4 (3+0)",
            "enter LineEnding 1:4 (3+0)",
            "exit LineEnding 2:1 (5+0)",
        ]
        self.assertEqual(found, wanted)
        self.assertEqual(limecove.events(""), [])

    def test_a_text_is_read_as_utf_8(self):
        last = limecove.events("é😀")[-1]
        self.assertEqual(last, limecove.Event(False, "Paragraph", 1, 7, 6, 0))
        self.assertEqual(limecove.events("a\0b"), limecove.events(b"a\0b"))
        self.assertEqual(limecove.events(b"a\0b")[-1].index, 3)

    def test_constructs_and_tab_stops_are_chosen(self):
        names = lambda **words: {it.name for it in limecove.events("~~a~~", **words)}
        self.assertNotIn("GfmStrikethrough", names())
        self.assertIn("GfmStrikethrough", names(constructs=limecove.COMMONMARK | limecove.GFM_STRIKETHROUGH))
        self.assertEqual(limecove.events("a\tb", tab_size=8)[-1].column, 10)

    def test_html_is_that_of_the_document(self):
        self.assertEqual(limecove.html("# a & *b*"), "<h1>a &amp; <em>b</em></h1>\n")
        self.assertEqual(limecove.html(b"\xff"), b"<p>\xff</p>\n")
        self.assertEqual(limecove.html(""), "")
        # longer than the room that is tried first
        self.assertEqual(limecove.html('"' * 1000), "<p>" + "&quot;" * 1000 + "</p>\n")

    def test_html_is_safe_but_for_what_is_allowed(self):
        document = "<b> [a](x:y)"
        self.assertEqual(limecove.html(document), '<p>&lt;b&gt; <a href="">a</a></p>\n')
        allow = limecove.ALLOW_DANGEROUS_HTML | limecove.ALLOW_DANGEROUS_PROTOCOL
        self.assertEqual(limecove.html(document, allow=allow), '<p><b> <a href="x:y">a</a></p>\n')

    def test_what_there_is_not_is_refused(self):
        for words, code, said in [
            ({"tab_size": 17}, 4, "no such tab size"),
            ({"tab_size": -1}, 4, "no such tab size"),
            ({"constructs": 1 << 40}, 5, "no such construct"),
            ({"constructs": 1 << 64}, 5, "no such construct"),
        ]:
            for call in (limecove.events, limecove.html):
                with self.assertRaises(limecove.Error) as raised:
                    call("a", **words)
                self.assertEqual((raised.exception.code, str(raised.exception)), (code, said))
        with self.assertRaisesRegex(limecove.Error, "no such permission"):
            limecove.html("a", allow=8)
        for other in (5, None, ["a"]):
            self.assertRaises(TypeError, limecove.events, other)
        self.assertEqual(limecove.events(bytearray(b"a")), limecove.events("a"))

    def test_tasks_are_checks_if_their_bit_is_on(self):
        for constructs, wanted in [(limecove.COMMONMARK, 0), (limecove.COMMONMARK | limecove.GFM_TASK_LIST_ITEM, 1)]:
            found = [it.name for it in limecove.events("- [x] a", constructs=constructs) if it.is_enter]
            self.assertEqual(found.count("GfmTaskListItemCheck"), wanted)

    def test_tables_are_read_if_their_bit_is_on(self):
        document = "a | b\n:- | -\nc"
        for constructs, wanted in [(limecove.COMMONMARK, 0), (limecove.COMMONMARK | limecove.GFM_TABLE, 4)]:
            found = [it.name for it in limecove.events(document, constructs=constructs) if it.is_enter]
            self.assertEqual(found.count("GfmTableRow") + found.count("GfmTableHead") + found.count("GfmTableBody"), wanted)
        html = '<table>\n<thead>\n<tr>\n<th align="left">a</th>\n<th>b</th>\n</tr>\n</thead>\n<tbody>\n<tr>\n<td align="left">c</td>\n<td></td>\n</tr>\n</tbody>\n</table>\n'
        self.assertEqual(limecove.html(document, constructs=limecove.COMMONMARK | limecove.GFM_TABLE), html)

    def test_threads_call_at_the_same_time(self):
        document = "a `b` *c*\n" * 200
        wanted, found = limecove.events(document), []
        threads = [threading.Thread(target=lambda: found.append(limecove.events(document))) for _ in range(4)]
        for thread in threads:
            thread.start()
        for thread in threads:
            thread.join()
        self.assertEqual(found, [wanted] * 4)


class Layout(unittest.TestCase):
    def test_fields_lie_where_the_library_has_them(self):
        options = limecove._Options(40, 2, 3, 4, 5, 6)
        text = limecove._HtmlOptions(24, 7, 8, 9)
        numbers, of_options, of_text = (limecove._Record() for _ in range(3))
        echo = limecove._library.limecove_echo
        echo.restype = limecove._Answer
        answer = echo(*map(ctypes.byref, (options, text, numbers, of_options, of_text)))
        self.assertEqual((answer.code, answer.version, answer.count), (1, limecove.VERSION, 3))
        fields = [name for name, _ in limecove._Record._fields_]
        self.assertEqual([getattr(numbers, it) for it in fields], [1, 2, 3, 4, 5, 6, 7, 8, 9])
        self.assertEqual([getattr(of_options, it) for it in fields], [0, 0, 5, 40, 2, 4, 6, 3, 0])
        of_html = limecove._Record()
        limecove._library.limecove_echo_html.restype = None
        limecove._library.limecove_echo_html(ctypes.byref(limecove._HtmlOptions(32, 7, 8, 9)), ctypes.byref(of_html))
        self.assertEqual([getattr(of_html, it) for it in fields], [0, 0, 0, 32, 7, 0, 0, 8, 9])

    def test_the_page_is_right(self):
        self.assertEqual(doctest.testmod(limecove), (0, 3))


if __name__ == "__main__":
    unittest.main()
