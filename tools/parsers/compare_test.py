#!/usr/bin/env python3
"""Tests of compare: what counts as a difference, and that it shrinks; and of items: their blanks and names."""
import os
import re
import sys
import unittest
from importlib.machinery import SourceFileLoader
from importlib.util import module_from_spec, spec_from_loader
from unittest import mock

HERE = os.path.dirname(os.path.abspath(__file__))
sys.dont_write_bytecode = True


def loaded(name):
    """The program of this name beside this file, as a module."""
    loader = SourceFileLoader(name, os.path.join(HERE, name))
    module = module_from_spec(spec_from_loader(name, loader))
    loader.exec_module(module)
    return module


compare, items = loaded("compare"), loaded("items")

STAGE = ["ok 3", "0 1 0 4 - 3 0 0", "1 18 0 4 0 3 0 1", "2 4 1 2 1 3 0 2"]
ROWS = [[1, 0, 4, -1, 0, 0], [18, 0, 4, 0, 0, 1], [16, 1, 2, 1, 0, 2]]


def port_answer(lines):
    lines = iter(lines)
    return compare.port_answer(next(lines), lines)


class Difference(unittest.TestCase):
    def differs(self, port, parser):
        return compare.difference(b"<A/>", port_answer(port), parser)

    def test_the_same_rows(self):
        self.assertIsNone(self.differs(STAGE, {"rows": ROWS}))
        self.assertIsNone(self.differs(STAGE, {"rows": None}))

    def test_each_word_of_a_row_counts(self):
        for row in range(3):
            for word, name in enumerate(compare.ROW):
                rows = [list(one) for one in ROWS]
                rows[row][word] += 1
                with self.subTest(row=row, word=name):
                    self.assertRegex(self.differs(STAGE, {"rows": rows})[1], "other spans: .*, %s$" % name)

    def test_more_and_less_rows(self):
        self.assertIn("more rows", self.differs(STAGE, {"rows": ROWS + [[14, 4, 5, -1, 0, 0]]})[1])
        self.assertIn("less rows", self.differs(STAGE, {"rows": ROWS[:2]})[1])

    def test_one_accepts_and_the_other_refuses(self):
        self.assertEqual(self.differs(STAGE, {"no": 'Expected ">" but found "if"'}), ("accepts", 'refuses: Expected ">" but found ..'))
        self.assertEqual(self.differs(["no 6 3 3 0 0"], {"rows": ROWS}), ("refuses by 6", "accepts"))
        self.assertEqual(self.differs(["no 3 2 2 0 0"], {"rows": None}), ('refuses by 3 at "/"', "accepts"))
        self.assertEqual(self.differs(["no 17 2 2 0 0"], {"rows": None}), ("refuses by 17", "accepts"))
        self.assertEqual(self.differs(["no 18 2 2 0 0"], {"rows": None}), ("refuses by 18", "accepts"))
        self.assertIsNone(self.differs(["no 6 3 3 0 0"], {"no": "Unexpected token"}))
        self.assertIsNone(self.differs(["no 18 2 2 0 0"], {"no": "Unterminated string constant"}))

    def test_characters_beyond_ascii_are_of_one_class(self):
        differs = compare.difference("<\u088f/>".encode(), port_answer(["no 3 1 1 0 0"]), {"rows": None})
        self.assertEqual(differs, ("refuses by 3 at a character beyond ASCII", "accepts"))
        differs = self.differs(STAGE, {"no": "Unexpected character '\u30fb'."})
        self.assertEqual(differs, ("accepts", "refuses: Unexpected character ..."))

    def test_the_checker_stands_with_its_parser(self):
        answers = compare.with_checker({"typescript": {"rows": None}, "checker": {"no": "TS17001: twice"}})
        self.assertEqual(self.differs(STAGE, answers["typescript"]), ("accepts", "accepts, its checker refuses: TS17001: twice"))
        self.assertEqual(compare.with_checker({"typescript": {"no": "TS1005"}}), {"typescript": {"no": "TS1005"}})


class Shrunk(unittest.TestCase):
    def shrunk(self, text, stays):
        """What remains of the text where the difference is there as long as `stays` says so."""
        def differences_of(_command, items, _parsers):
            return {n: {"p": ("one", "other")} if stays(data) else {} for n, (_, data) in enumerate(items)}

        with mock.patch.object(compare, "differences_of", differences_of):
            (item, _), = compare.shrunk([], ["p"], [(("s", text), ("one", "other"))])
        return item[1]

    def test_bytes_that_do_not_matter_are_dropped(self):
        text = b"<v>some text</v>{and + more}!<another/>, that is, 60 bytes or more of it <x y={z}/>? and an end"
        self.assertEqual(self.shrunk(text, lambda data: b"!" in data and b"?" in data), b"!?")

    def test_two_names_shrink_together(self):
        self.assertEqual(self.shrunk(b"<long></long>", lambda data: re.fullmatch(rb"<(\w+)></\1>", data)), b"<a></a>")

    def test_another_class_is_no_success(self):
        self.assertEqual(self.shrunk(b"{a+b}", lambda data: data == b"{a+b}"), b"{a+b}")


class Items(unittest.TestCase):
    def test_a_batch_is_read_back(self):
        some = [("s", b"<a/>"), ("r", b""), ("r", "\u2028".encode())]
        self.assertEqual(list(compare.items_of(compare.batch_of(some))), some)

    def test_blanks_beyond_ascii_stand_at_every_hole(self):
        self.assertEqual(len(set(items.NEW_BLANKS)), 19)
        filled = set(items.filled())
        for character in items.NEW_BLANKS + items.NEAR_MISSES:
            for frame in items.HOLES:
                self.assertIn(("s", frame.replace("@", character).encode()), filled)

    def test_line_comments_end_by_each_terminator(self):
        filled = set(items.filled())
        for terminator in "\n\r\u2028\u2029":
            for frame in ("<a//%sb/>", "<a//x%s/>", "<a>{//%s}</a>", "//%s<a/>", "<a/>//%s"):
                self.assertIn(("s", (frame % terminator).encode()), filled)

    def test_random_items_have_blanks_beyond_ascii(self):
        rng = items.random.Random(1)
        texts = [items.random_item(rng, number)[1].decode() for number in range(3000)]
        for character in items.NEW_BLANKS + ["//\u2028", "//x\u2029"]:
            self.assertTrue(any(character in text for text in texts), ascii(character))

    def test_name_characters_beyond_ascii_stand_at_every_hole(self):
        filled = set(items.filled())
        for character in items.LETTERS + items.LATER_ONLY + items.IN_NO_NAME:
            for frame in items.HOLES:
                self.assertIn(("s", frame.replace("@", character).encode()), filled)

    def test_random_items_have_names_beyond_ascii(self):
        rng = items.random.Random(1)
        texts = [items.random_item(rng, number)[1].decode() for number in range(3000)]
        for name in items.NEW_NAMES:
            self.assertTrue(any("<" + name in text for text in texts), ascii(name))

    def test_a_refusal(self):
        self.assertEqual(port_answer(["no 7 1 2 5 6"]), compare.Answer(7, [1, 2, 5, 6], None))


if __name__ == "__main__":
    unittest.main()
