"""Tests of the package: its docstrings' examples, each error, and texts that come back."""
import doctest
import importlib
import io
import json
import os
import pathlib
import pickle
import stat
import struct
import subprocess
import sys
import tempfile
import threading
import typing
import unittest
from unittest import mock

import tocmark
from tocmark import _mdbook, _program
from tocmark._calls import _dumped

HERE = os.path.dirname(os.path.realpath(__file__))
EXAMPLES = os.path.join(HERE, "../../../tools/test/data/commonmark.txt")
PARAGRAPH = [{"Start": "Paragraph"}, {"Text": "a"}, {"End": "Paragraph"}]
FRONT = "---\ntitle:   x\n---\n\n"
# What no writer would write so.
ODD = FRONT + "*  a [b](/old) &eacute;\n\n\n|c|\n|-|\n|~~d~~|\n\n> [!NOTE]\n>  e[^1]\n\n[^1]:  f\n\n\nNotes\n=====\n"


def has_program():
    try:
        return bool(_program.program())
    except FileNotFoundError:
        return False


def load_tests(loader, tests, pattern):
    for name in ("", "._calls", "._compare", "._outline", "._tree"):
        tests.addTests(doctest.DocTestSuite(importlib.import_module(f"tocmark{name}")))
    return tests


def examples():
    with open(EXAMPLES, encoding="utf-8") as file:
        return [json.loads(line) for line in file if line.startswith('"')]


def merged(pairs):
    """Returns the events without their ranges, each longest stretch of texts as one."""
    events = []
    for event, _ in pairs:
        if "Text" in event and events and "Text" in events[-1]:
            events[-1] = {"Text": events[-1]["Text"] + event["Text"]}
        else:
            events.append(event)
    return events


def relink(event):
    match event:
        case {"Start": {"Link": link}}:
            link["dest_url"] = "/new"


def lower(event):
    match event:
        case {"Start": {"Heading": heading}}:
            heading["level"] = f"H{min(int(heading['level'][1]) + 1, 6)}"


class Reading(unittest.TestCase):
    def test_ranges_count_bytes(self):
        self.assertEqual(tocmark.read("é *a*")[1:3], [({"Text": "é "}, range(0, 3)), ({"Start": "Emphasis"}, range(3, 6))])

    def test_an_empty_text_has_no_events(self):
        self.assertEqual(tocmark.read(""), [])

    def test_a_zero_byte_ends_nothing(self):
        self.assertEqual(tocmark.read("a\0b")[1][0], {"Text": "a\ufffdb"})

    def test_a_long_answer_takes_a_second_call(self):
        data = b"a\n\n" * 5000
        size, text = tocmark._library.answer(tocmark._library.read_json, data, len(data), 0, guess=3)
        self.assertEqual((size, len(json.loads(text))), (len(text), 15000))

    def test_the_default_is_gfm_with_front_matter(self):
        self.assertEqual(tocmark.read(FRONT)[0][0], {"Start": {"MetadataBlock": "YamlStyle"}})
        self.assertEqual(tocmark.read("+++\na\n+++\n")[0][0], {"Start": {"MetadataBlock": "PlusesStyle"}})
        self.assertEqual(tocmark.read("~~a~~")[1][0], {"Start": "Strikethrough"})
        self.assertEqual(tocmark.read("~~a~~", syntax="commonmark")[1][0], {"Text": "~~a~~"})

    def test_names(self):
        with self.assertRaisesRegex(ValueError, "'x' is none of commonmark, gfm, all"):
            tocmark.read("a", syntax="x")
        with self.assertRaisesRegex(ValueError, "'x' is none of tables, "):
            tocmark.read("a", extensions=["x"])
        with self.assertRaisesRegex(ValueError, "'no-x' is none of tables, "):
            tocmark.read("a", extensions=["no-x"])
        with self.assertRaisesRegex(TypeError, "'tables'"):
            tocmark.read("a", extensions="tables")

    def test_what_is_no_text(self):
        with self.assertRaises(UnicodeEncodeError):
            tocmark.read("\ud800")
        for call in (tocmark.read, tocmark.format, lambda text: tocmark.rewrite(text, []), lambda text: tocmark.write([], text),
                     lambda text: tocmark.edit(text, relink), lambda text: tocmark.text_of(text, range(0))):
            for text in (b"a", None, 1, bytearray(b"a")):
                with self.assertRaisesRegex(TypeError, f"must be a str, and not {type(text).__name__}|unhashable"):
                    call(text)


class Extensions(unittest.TestCase):
    def test_mathematics_kinds_of_quotes_and_attributes(self):
        self.assertEqual(tocmark.read("$a$", extensions=["math"])[1], ({"InlineMath": "a"}, range(0, 3)))
        self.assertEqual(tocmark.read("> [!NOTE]\n> a")[0][0], {"Start": {"BlockQuote": "Note"}})
        heading = tocmark.read("# a {#b}", syntax="all")[0][0]["Start"]["Heading"]
        self.assertEqual(heading["id"], "b")


class Writing(unittest.TestCase):
    def refused(self, error, code, events, source="", **options):
        with self.assertRaises(error) as caught:
            tocmark.write(events, source, **options)
        self.assertEqual(caught.exception.code, code)
        return caught.exception

    def test_events_alone_and_with_none(self):
        self.assertEqual(tocmark.write(PARAGRAPH), "a")
        self.assertEqual(tocmark.write([(event, None) for event in PARAGRAPH]), "a")
        self.assertEqual(tocmark.write([[event, None] for event in PARAGRAPH]), "a")
        self.assertEqual(tocmark.write([]), "")

    def test_a_new_event_stands_beside_read_ones(self):
        events = tocmark.read("a")
        self.assertEqual(tocmark.write([*events, "Rule"], "a"), "a\n\n---")

    def test_a_reference_to_a_footnote_stands_beside_emphasis(self):
        self.assertEqual(tocmark.write(tocmark.read("*a*[^1]\n\n[^1]: b\n")), "*a*[^1]\n\n[^1]: b")

    def test_errors(self):
        self.refused(tocmark.NotEvents, -6, ["Rul"])
        self.refused(tocmark.InvalidOptions, -9, PARAGRAPH, extensions=["superscript"], use_html_for_super_sub_script=True)
        self.refused(tocmark.UnexpectedEvent, -10, PARAGRAPH[:2])
        struck = [PARAGRAPH[0], {"Start": "Strikethrough"}, {"Text": "a"}, {"End": "Strikethrough"}, PARAGRAPH[2]]
        self.refused(tocmark.Unrepresentable, -11, struck, syntax="commonmark")
        self.refused(tocmark.InvalidSourceRange, -12, [("Rule", range(2, 9))], "---")

    def test_errors_have_a_place(self):
        struck = [PARAGRAPH[0], {"Start": "Strikethrough"}, {"Text": "b"}, {"End": "Strikethrough"}, PARAGRAPH[2]]
        placed = [*((event, range(0, 1)) for event in PARAGRAPH), *((event, range(4, 5)) for event in struck)]
        for document in (False, True):
            for events, source, event, lines in ((PARAGRAPH + struck, "", 3, None), (placed, "a\n\n\nb\n", 3, (4, 4)),
                                                 ([*PARAGRAPH, "Rul"], "", 3, None), (PARAGRAPH[:2], "", 0, None),
                                                 ([*PARAGRAPH, ("Rule", range(2, 9))], "---", 3, (1, 1))):
                with self.assertRaises(tocmark.Error) as caught:
                    tocmark.write(events, source, syntax="commonmark", check_document=document)
                self.assertEqual((caught.exception.event, caught.exception.lines), (event, lines), events)
        error = self.refused(tocmark.InvalidOptions, -9, PARAGRAPH, extensions=["superscript"], use_html_for_super_sub_script=True)
        self.assertEqual((error.event, error.lines), (None, None))

    def test_an_option_that_is_wrong_is_named(self):
        for options, wanted in (({"list_token": "x"}, "list_token: expected one of * - +, and not 'x'"),
                                ({"bullet": "-"}, "there is no option bullet"),
                                ({"newlines_after_rest": -1}, "newlines_after_rest: expected a whole number from 0, below 2**63 - 1, and not -1"),
                                ({"check_plain_blocks": 1}, "check_plain_blocks: expected True or False, and not 1")):
            error = self.refused(tocmark.InvalidOptions, -8, PARAGRAPH, **options)
            self.assertEqual(str(error), wanted)
        self.assertEqual(tocmark.write([*PARAGRAPH, "Rule"], newlines_after_paragraph=1, check_plain_blocks=True), "a\n\n---")

    def test_a_document_is_checked(self):
        note = [{"Start": {"FootnoteDefinition": "1"}}, {"End": "FootnoteDefinition"}]
        items = [{"Start": {"List": None}}, {"Start": "Item"}, {"Text": "a"}, {"End": "Item"}, {"End": {"List": False}}]
        tocmark.write(note + items, check_document=False)
        error = self.refused(tocmark.Changed, -16, note + items)
        self.assertEqual((error.event, error.lines), (1, None))
        self.refused(tocmark.Changed, -16, [{"Text": "a"}])
        self.assertEqual(tocmark.write([{"Text": "a"}], check_document=False), "a")

    def test_what_is_no_json(self):
        for event, error, what in (({"Text": b"a"}, TypeError, "event 1: JSON has no bytes"),
                                   ({"Text": float("nan")}, ValueError, "event 1: Out of range float values"),
                                   (("Rule", slice(0, 3)), TypeError, "event 1: JSON has no slice")):
            for call in (tocmark.write, lambda events: tocmark.rewrite("---", events)):
                with self.assertRaisesRegex(error, what):
                    call(["Rule", event])
        for call in (tocmark.write, tocmark.tree):
            with self.assertRaisesRegex(TypeError, "events must be a list of events, and not str"):
                call("Rule")

    def test_texts_come_back(self):
        for text in examples():
            events = tocmark.read(text)
            written = tocmark.write(events, text, check_document=False)
            self.assertEqual([event for event, _ in tocmark.read(tocmark.write(tocmark.read(written), written, check_document=False))],
                             [event for event, _ in tocmark.read(written)], text)


class Loading(unittest.TestCase):
    def test_events_are_those_of_json(self):
        for text in ["", ODD, "a {{b}}\n\n# c {#d .e f=g h}\n\n$h$ $$i$$ [[i]] [[j|k]] <l@m.n>\n\no\n: p\n\n7. q\n", *examples()]:
            for syntax in ("gfm", "all"):
                with mock.patch("marshal.loads", side_effect=ValueError):
                    wanted = tocmark.read(text, syntax=syntax)
                found = tocmark.read(text, syntax=syntax)
                self.assertEqual(repr(found), repr(wanted), text)

    def test_bytes_that_are_too_long_are_read_as_json(self):
        with mock.patch("tocmark._library.filled", side_effect=lambda function, *arguments, guess: (-17, None)):
            with mock.patch("tocmark._library.answer", side_effect=lambda *arguments, guess: (2, b"[]")):
                self.assertEqual(tocmark.read("a"), [])

    def test_events_share_no_part_that_changes(self):
        events = tocmark.read("[a](b) [a](b)")
        events[1][0]["Start"]["Link"]["dest_url"] = "c"
        self.assertEqual(events[5][0]["Start"]["Link"]["dest_url"], "b")


class Dumping(unittest.TestCase):
    def test_a_text_is_as_the_header_says(self):
        text = b"{u\4\0\0\0Textu\2\0\0\0hi0"
        self.assertEqual(_dumped([{"Text": "hi"}]), b"[\3\0\0\0NN" + text)
        self.assertEqual(_dumped([({"Text": "hi"}, range(1, 3))]), b"[\3\0\0\0i\1\0\0\0i\3\0\0\0" + text)
        self.assertEqual(_dumped([]), b"[\0\0\0\0")

    def test_dumped_events_are_written_as_those_in_json(self):
        for text in [ODD, "a {{b}}\n\n# c {#d .e f=g}\n\n$h$ [[i]] [[j|k]] <l@m.n>\n\no\n: p\n\n---\n", *examples()]:
            events = tocmark.read(text, syntax="all")
            alone = [event for event, _ in events]
            for given, source in ((events, text), (alone, ""), ([list(pair) for pair in events], text),
                                  ([(event, place if at % 2 else None) for at, (event, place) in enumerate(events)], text)):
                with mock.patch("tocmark._calls._json_of", side_effect=AssertionError):
                    found = tocmark.write(given, source, syntax="all", check_document=False)
                with mock.patch("tocmark._calls._dumped", lambda items: None):
                    self.assertEqual(tocmark.write(given, source, syntax="all", check_document=False), found, text)

    def answers_as_json(self, events):
        """What `write` answers, which has to be the same by way of JSON."""
        def answer():
            try:
                return tocmark.write(events, syntax="all", check_document=False)
            except (TypeError, ValueError) as error:
                return type(error), str(error)
        found = answer()
        with mock.patch("tocmark._calls._dumped", lambda items: None):
            self.assertEqual(answer(), found, events)
        return found

    def test_what_is_refused_is_refused_as_json(self):
        link = {"link_type": "Inline", "dest_url": "a", "title": "", "id": ""}
        heading = {"level": "H1", "id": None, "classes": [], "attrs": []}
        starts = ["Link", {"Link": {}}, {"Link": {**link, "more": 1}}, {"Link": {**link, "link_type": "x"}}, {"Link": {**link, "id": None}},
                  {"Link": {**link, "link_type": {"WikiLink": {"has_pothole": 1}}}}, {"Heading": {**heading, "classes": "a"}},
                  {"Heading": {**heading, "attrs": ["ab"]}}, {"Heading": {**heading, "level": "H7"}}, {"List": True}, {"List": -1},
                  {"List": 2**64}, {"Table": "None"}, {"BlockQuote": "x"}, {"CodeBlock": "x"}, {"CodeBlock": {"Fenced": None}}, {}, None]
        wrong = [*({"Start": start} for start in starts), {"Text": b"a"}, {"Text": "a", "Code": "b"}, {"Rule": None}, {}, [], None,
                 {"TaskListMarker": 1}, {"End": {"List": None}}, {"End": {"Heading": heading}}, "Text", "Rul", 1, {1: 2}, {"Text": "\ud800"}]
        for events in [*(["Rule", event] for event in wrong), *([("Rule", None), (event, None)] for event in wrong),
                       *([("Rule", place)] for place in (range(-1, 2), range(0, 2**64), {"start": 1}, 1)), [("Rule", None, 1)], [["Rule"]]]:
            self.assertIsInstance(self.answers_as_json(events), tuple, events)

    def test_what_json_has_otherwise_is_written(self):
        class Text(str):
            pass

        class Event(dict):
            pass

        heading = {"Heading": {"level": "H1", "id": None, "classes": ("a",), "attrs": (("b", "c"),)}}
        for event in ({"Start": heading}, Event(Start=heading), {Text("Start"): heading}):
            events = [event, {"Text": "d"}, {"End": {"Heading": "H1"}}]
            self.assertIn("d", self.answers_as_json(events))
            self.assertIn("d", self.answers_as_json([(each, None) for each in events]))
        for events in (["Rule", ("Rule", {"start": 0, "end": 3})], [("Rule", range(0, 2**31))], [(Text("Rule"), range(0))], [["Rule", None]]):
            self.assertIn("---", self.answers_as_json(events))
        self.assertEqual(tocmark.write(event for event in ["Rule"]), "---")


class Listing(unittest.TestCase):
    def test_a_link_has_its_image(self):
        found = tocmark.links("[![a *b*](c.png 'd')](/e)\n\n> <x@y.z> [f]\n> [g][h]\n\n[h]: /i")
        self.assertEqual([(it.text, it.destination, it.title, it.kind, it.label, it.is_image) for it in found], [
            ("a b", "/e", "", "Inline", "", False), ("a b", "c.png", "d", "Inline", "", True),
            ("x@y.z", "x@y.z", "", "Email", "", False), ("g", "/i", "", "Reference", "h", False)])

    def test_lists_are_those_of_all_events(self):
        for text in (ODD, "", "a\n", "# a `b` <i>c</i>\n\n1. ## d  \n   e\n"):
            nodes = [*tocmark.walk(tocmark.read(text), text)]
            self.assertEqual([(it.destination, it.text, it.range) for it in tocmark.links(text)],
                             [(it.value["dest_url"], it.text, it.range) for it in nodes if it.name in ("Link", "Image")])
            self.assertEqual([(f"H{it.level}", it.text, it.id, it.range) for it in tocmark.headings(text)],
                             [(it.value["level"], it.text, it.value["id"], it.range) for it in nodes if it.name == "Heading"])
            self.assertEqual([(event, range(place["start"], place["end"])) for event, place in json.loads(tocmark.read_json(text))],
                             tocmark.read(text))

    def test_words_have_lines(self):
        for text, wanted in (("", ""), ("a\nb  \nc\n", "a\nb\nc\n"), (FRONT + "a", "a\n"), ("<p>x</p>\n\n<b>y</b>", "y\n"),
                             ("* a\n  * b\n* c\n\n      d\n", "a\nb\nc\nd\n"), ("```\nx\n\ny\n```\nz", "x\n\ny\nz\n"),
                             ("|a|b|\n|-|-|\n|c|\n", "a\nb\nc\n"), ("[a](b)![c](d) &amp;", "ac &\n"), ("x[^1]\n\n[^1]: y", "x\ny\n")):
            self.assertEqual(tocmark.text(text), wanted, text)

    def test_syntaxes(self):
        self.assertEqual(tocmark.headings("# a {#b}", extensions=["heading-attributes"])[0].id, "b")
        self.assertEqual(tocmark.text("~~a~~", syntax="commonmark"), "~~a~~\n")
        self.assertEqual([it.kind for it in tocmark.links("x\n|[a](b)|\n|-|\n")], ["Inline"])
        with tempfile.TemporaryDirectory() as folder:
            path = pathlib.Path(folder, "a.md")
            path.write_bytes(b"# A\r\n\r\n[b](c.md)\r\n")
            self.assertEqual([(it.destination, it.range) for it in tocmark.links(path)], [("c.md", range(7, 16))])
            self.assertRaises(FileNotFoundError, tocmark.links, pathlib.Path(folder, "b.md"))
        for call in (tocmark.links, tocmark.headings, tocmark.text, tocmark.definitions, tocmark.read_json):
            with self.assertRaisesRegex(ValueError, "'html' is none of commonmark"):
                call("a", syntax="html")
            with self.assertRaisesRegex(TypeError, "text must be a str"):
                call(b"a")


class Redefining(unittest.TestCase):
    SOURCE = "[a]\r\n\r\n[a]: /b 'c'\r\n> [d]: /e\r\n"

    def test_definitions_get_what_is_given(self):
        for mark in ("", "\ufeff"):
            whole = mark + self.SOURCE
            one, other = tocmark.definitions(whole)
            self.assertEqual(tocmark.redefine(whole, []), whole)
            self.assertEqual(tocmark.redefine(whole, [one, other]), whole)
            self.assertEqual(tocmark.redefine(whole, [other._replace(title="f")]), f'{mark}[a]\r\n\r\n[a]: /b \'c\'\r\n> [d]: /e "f"\r\n')
            self.assertEqual(tocmark.redefine(whole, (it._replace(destination="/é x", title="") for it in (other, one))),
                             f"{mark}[a]\r\n\r\n[a]: </é x>\r\n> [d]: </é x>\r\n")
        self.assertEqual(tocmark.redefine("", [], syntax="commonmark"), "")

    def test_errors_say_where_they_are(self):
        one, other = tocmark.definitions(self.SOURCE)
        for error, code, lines, given, said in (
                (tocmark.NoDefinition, -19, None, [other, one._replace(label="b")], "definition 1: a definition is none of the source"),
                (tocmark.NoDefinition, -19, None, [other._replace(range=one.range)], "definition 0: a definition is none of the source"),
                (tocmark.Error, -18, None, [one._replace(title=None)], "definition 0: the JSON is not that of definitions of links"),
                (tocmark.Changed, -16, (4, 4), [other, other._replace(destination="/f")],
                 "line 4: no text was found that has this definition and else parses as before")):
            with self.assertRaises(error) as caught:
                tocmark.redefine(self.SOURCE, given)
            self.assertEqual((caught.exception.code, caught.exception.lines, str(caught.exception)), (code, lines, said))
        with self.assertRaisesRegex(TypeError, "source must be a str"):
            tocmark.redefine(b"a", [])
        with self.assertRaisesRegex(ValueError, "'html' is none of commonmark"):
            tocmark.redefine("a", [], syntax="html")


class Rewriting(unittest.TestCase):
    def refused(self, error, source, events, event, lines, **options):
        with self.assertRaises(error) as caught:
            tocmark.rewrite(source, events, **options)
        self.assertEqual((caught.exception.event, caught.exception.lines), (event, lines))
        return str(caught.exception)

    def test_all_that_is_not_changed_stays(self):
        self.assertEqual(tocmark.rewrite(ODD, tocmark.read(ODD)), ODD)
        self.assertEqual(tocmark.rewrite(ODD, [event for event, _ in tocmark.read(ODD)]), ODD)
        self.assertEqual(tocmark.edit(ODD, relink), ODD.replace("/old", "/new"))
        self.assertEqual(tocmark.edit(ODD, lower), ODD.replace("=====", "-----"))
        for text in ("", "\n", "a", "\r\n\r\na\r\n", "\ufeff*  a\n"):
            self.assertEqual(tocmark.edit(text, lambda event: None), text)

    def test_a_byte_order_mark_is_no_text_and_stays(self):
        source = "# One\n\n[a]\n\n[a]: /b\n"
        whole = "\ufeff" + source
        self.assertEqual(tocmark.read(whole), [(event, range(at.start + 3, at.stop + 3)) for event, at in tocmark.read(source)])
        self.assertEqual([(it.text, it.range) for it in tocmark.headings(whole)], [("One", range(3, 8))])
        self.assertEqual([it.range for it in tocmark.links(whole)], [range(it.range.start + 3, it.range.stop + 3) for it in tocmark.links(source)])
        self.assertEqual(tocmark.definitions(whole)[0].range.start, tocmark.definitions(source)[0].range.start + 3)
        self.assertEqual(tocmark.text(whole), tocmark.text(source))
        self.assertEqual(tocmark.tree(tocmark.read(whole), whole)[0].text, "One")
        self.assertEqual(tocmark.edit(whole, lambda event: {"Text": "Two"} if event == {"Text": "One"} else None), whole.replace("One", "Two"))
        self.assertEqual(tocmark.rewrite(whole, [event for event, _ in tocmark.read(whole)]), whole)
        self.assertEqual(tocmark.write(tocmark.read(whole), source=whole), tocmark.write(tocmark.read(source), source=source))

    def test_another_event_is_taken(self):
        found = tocmark.edit(ODD, lambda event: {"Text": "g"} if event == {"Text": "f"} else event)
        self.assertEqual(found, ODD.replace("[^1]:  f", "[^1]:  g"))

    def test_a_change_returns_one_event_or_several(self):
        heading, end = {"Start": {"Heading": {"level": "H1", "id": None, "classes": [], "attrs": []}}}, {"End": {"Heading": "H1"}}
        source = "# a\n\n*  b\n"
        pairs = tocmark.read("**n**")
        for new in (pairs, [event for event, _ in pairs], tocmark.tree(pairs)):
            self.assertEqual(tocmark.edit(source, lambda event: [event, *new] if event == end else None), "# a\n\n**n**\n\n*  b\n")
            self.assertEqual(tocmark.edit(source, lambda event: [*new, event] if event == heading else None), "**n**\n\n# a\n\n*  b\n")
        self.assertEqual(tocmark.edit(source, lambda event: tocmark.tree("Rule")[0] if event == {"Text": "b"} else None)
                         if False else tocmark.edit("a\n\n---\n\nb\n", lambda event: tocmark.tree(pairs)[0] if event == "Rule" else None),
                         "a\n\n**n**\n\nb\n")

    def test_a_change_removes_events(self):
        self.assertEqual(tocmark.edit("*a* **b** c\n", lambda event: [] if event == {"Start": "Emphasis"} else None), "a **b** c\n")
        self.assertEqual(tocmark.edit("a\n\n---\n\nb\n", lambda event: [] if event == "Rule" else None), "a\n\nb\n")
        self.assertEqual(tocmark.edit("a **b**\n", lambda event: [] if event == {"Text": "a "} else None), "**b**\n")

    def test_a_start_becomes_several(self):
        def both(event):
            return [{"Start": "Strong"}, {"Start": "Emphasis"}] if event == {"Start": "Emphasis"} else None

        # ***b*** would be strong emphasis in emphasis.
        self.assertEqual(tocmark.edit("a *b* c\n", both), "a __*b*__ c\n")

    def test_a_range_may_be_two_numbers(self):
        source = "*  a\n"
        for make in (tuple, list):
            events = [(event, make((place.start, place.stop))) for event, place in tocmark.read(source)]
            self.assertEqual(tocmark.rewrite(source, events), source)
            self.assertEqual(tocmark.write(events, source), "* a")
            self.assertEqual(tocmark.tree(events, source)[0].range, range(0, 4))

    def test_errors_name_the_key_and_what_is_wanted(self):
        link = {"link_type": "Inline", "dest_url": "a", "title": "", "id": ""}
        heading = {"level": "H1", "id": None, "classes": [], "attrs": []}
        for event, said in (("Rul", 'found "Rul", expected an event, by its name or as an object with its name as the only key'),
                            ({"Txt": "a" * 40}, 'found {"Txt":"' + "a" * 32 + ".., expected an event, by its name or as an object with its name as the only key"),
                            ({"Text": 1}, "Text: expected a string"),
                            ({"Start": {"Heading": {**heading, "level": "H7"}}}, "level: expected a level, H1 to H6"),
                            ({"Start": {"Heading": {**heading, "attrs": [["a"]]}}}, "attrs: expected an array of two, a string and a string or null"),
                            ({"Start": {"Link": {**link, "more": 1}}}, "Link: expected an object with the keys link_type, dest_url, title and id alone"),
                            ({"Start": {"Link": {**link, "link_type": "x"}}}, "link_type: expected a type of link, as Inline"),
                            ({"End": "x"}, "End: expected a container's end, by its name or as an object with its name as the only key"),
                            ({"Start": {"List": -1}}, "List: expected null, or a whole number from 0 to 18446744073709551615"),
                            (("Rule", (0,)), "range: expected a range, two numbers or None"),
                            (("Rule", range(-1, 2)), "range: expected twice a whole number from 0 to 18446744073709551615"),
                            (("Rule", None, 1), "pair: expected an array of two, an event and its range")):
            for call in (tocmark.write, lambda events: tocmark.rewrite("---\n", events)):
                with self.assertRaises(tocmark.NotEvents) as caught:
                    call(["Rule", event])
                self.assertEqual((str(caught.exception), caught.exception.event), (f"event 1: {said}", 1), event)

    def test_extensions_may_be_an_iterator(self):
        self.assertEqual(tocmark.edit("$a$\n", lambda event: None, extensions=iter(["math"])), "$a$\n")

    def test_an_end_follows_its_start(self):
        def stronger(event):
            return {"Start": "Strong"} if event == {"Start": "Emphasis"} else None

        self.assertEqual(tocmark.edit("*a* b\n", stronger), "**a** b\n")
        self.assertEqual(tocmark.edit("1. a\n", lambda it: {"Start": {"List": None}} if "Start" in it and "List" in it["Start"] else it),
                         "* a\n")

    def test_options_are_those_of_the_writer(self):
        events = [{"Start": {"List": None}}, {"Start": "Item"}, {"Text": "a"}, {"End": "Item"}, {"End": {"List": False}}]
        self.assertEqual(tocmark.rewrite("", events, list_token="+").rstrip("\n"), "+ a")

    def test_errors_have_a_place(self):
        struck = [PARAGRAPH[0], {"Start": "Strikethrough"}, {"Text": "b"}, {"End": "Strikethrough"}, PARAGRAPH[2]]
        said = self.refused(tocmark.Unrepresentable, "a\n\n\nb\n", PARAGRAPH + struck, 3, (4, 4), syntax="commonmark")
        self.assertEqual(said, "event 3, line 4: no spelling of a block of events reads back")
        self.refused(tocmark.NotEvents, "a\n", [*PARAGRAPH, "Rul"], 3, None)
        self.refused(tocmark.UnexpectedEvent, "a\n", [*PARAGRAPH, {"Start": "Paragraph"}], 3, None)
        self.refused(tocmark.InvalidOptions, "a\n", PARAGRAPH, None, None, list_token="x")
        self.refused(tocmark.InvalidOptions, "a\n", PARAGRAPH, None, None, syntax="all", use_html_for_super_sub_script=True)

    def test_links_that_share_a_definition(self):
        source = "[a][x] and [b][x]\n\n[x]: /u\n"
        events = tocmark.read(source)
        links = [event["Start"]["Link"] for event, _ in events if "Link" in event.get("Start", ())]
        links[0]["dest_url"] = "/v"
        said = self.refused(tocmark.Changed, source, events, 0, (1, 1))
        self.assertEqual(said, "event 0, line 1: no text was found that parses to these events: links by the label x share its "
                         "definition, so give them one destination and title, or make one Inline")
        links[1]["dest_url"] = "/v"
        self.assertEqual(tocmark.rewrite(source, events), source.replace("/u", "/v"))
        links[1].update(dest_url="/u", link_type="Inline", id="")
        self.assertEqual(tocmark.rewrite(source, events), "[a][x] and [b](/u)\n\n[x]: /v\n")

    def test_errors_are_pickled(self):
        for error in (tocmark.Error(-5), tocmark.NotEvents(-6, 3), tocmark.Unrepresentable(-11, 3, (4, 5)),
                      tocmark.InvalidOptions(-8, cause="there is no option a")):
            copy = pickle.loads(pickle.dumps(error))
            self.assertIs(type(copy), type(error))
            self.assertEqual((str(copy), copy.code, copy.event, copy.lines), (str(error), error.code, error.event, error.lines))
        self.assertEqual(str(tocmark.Unrepresentable(-11, 3, (4, 5))),
                         "event 3, lines 4 to 5: no spelling of a block of events reads back")

    def test_texts_stay(self):
        for text in examples():
            self.assertEqual(tocmark.edit(text, lambda event: None, syntax="all"), text)


class Trees(unittest.TestCase):
    def test_a_tree_has_all_events(self):
        for text in [ODD, *examples()]:
            events = tocmark.read(text)
            nodes = tocmark.tree(events, text)
            self.assertEqual([pair for node in nodes for pair in node.events()], events, text)

    def test_nodes(self):
        text = "é\n\n> *a*\\\n> `b`\n"
        nodes = list(tocmark.walk(tocmark.read(text), text))
        self.assertEqual([(node.name, node.line, node.column) for node in nodes],
                         [("Paragraph", 1, 1), ("Text", 1, 1), ("BlockQuote", 3, 1), ("Paragraph", 3, 3), ("Emphasis", 3, 3),
                          ("Text", 3, 4), ("HardBreak", 3, 6), ("Code", 4, 3)])
        self.assertEqual(nodes[2].text, "a\nb")
        self.assertEqual([tocmark.text_of(text, node.range) for node in nodes[4:]], ["*a*", "a", "\\\n", "`b`"])
        self.assertIsNone(next(tocmark.walk(tocmark.read(text))).line)
        self.assertIsNone(next(tocmark.walk(["Rule"], text)).column)

    def test_a_tree_is_changed(self):
        text = "1. a\n2. b\n\n***\n"
        items, rule = tocmark.tree(tocmark.read(text))
        del items.children[0]
        items.event = {"Start": {"List": None}}
        self.assertEqual(tocmark.rewrite(text, [*items.events(), *rule.events()]), "* b\n\n***\n")

    def test_a_deep_tree_takes_no_recursion(self):
        events = [{"Start": "Emphasis"}] * 5000 + [{"End": "Emphasis"}] * 5000
        self.assertEqual(sum(1 for _ in tocmark.walk(events)), 5000)
        self.assertEqual(len(tocmark.tree(events)[0].events()), 10000)

    def test_what_stands_alone(self):
        for events, number in (([{"End": "Paragraph"}], 0), ([*PARAGRAPH, {"Start": "Paragraph"}], 3)):
            with self.assertRaises(tocmark.UnexpectedEvent) as caught:
                tocmark.tree(events)
            self.assertEqual(caught.exception.event, number)

    def test_positions(self):
        self.assertEqual([tocmark.position_of("a\r\nb\rc\n", at) for at in (0, 3, 5, 7)], [(1, 1), (2, 1), (3, 1), (4, 1)])
        for at in (-1, 2):
            with self.assertRaises(ValueError):
                tocmark.position_of("a", at)
        with self.assertRaises(ValueError):
            tocmark.position_of("é", 1)
        with self.assertRaises(ValueError):
            tocmark.text_of("a", range(0, 2))


class Formatting(unittest.TestCase):
    def refused(self, text, **style):
        with self.assertRaises(tocmark.InvalidStyle) as caught:
            tocmark.format(text, **style)
        self.assertEqual(caught.exception.code, -15)

    def test_styles(self):
        self.assertEqual(tocmark.format("*  a\n*  b"), "*  a\n*  b\n")
        self.assertEqual(tocmark.format("*  a\n*  b", bullet="+"), "+  a\n+  b\n")
        self.assertEqual(tocmark.format("1. a\n2. b", ordered=")", numbering="first"), "1) a\n1) b\n")
        self.assertEqual(tocmark.format("1. a\n1. b", numbering="increment"), "1. a\n2. b\n")
        self.assertEqual(tocmark.format("*a* **b**", emphasis="_", strong="_"), "_a_ __b__\n")
        self.assertEqual(tocmark.format("~~~\na\n~~~", fence="`", fence_length=4), "````\na\n````\n")
        self.assertEqual(tocmark.format("_a_ __b__"), "_a_ __b__\n")
        self.assertEqual(tocmark.format("_a_ __b__", emphasis="*", strong="**"), "*a* **b**\n")
        table = "| a | bbb |\n| - | --- |\n| c | d |\n"
        self.assertEqual(tocmark.format(table), "| a   | bbb |\n| --- | --- |\n| c   | d   |\n")
        self.assertEqual(tocmark.format(table, tables="source"), table)

    def test_looks(self):
        text = "_a_\\\n__b__\n\n***\n\n1) c\n1) d\n\n*   e\n\n| f | ggg |\n| - | --- |\n\n~~~\nh\n~~~\n"
        self.assertEqual(tocmark.format(text, look="source"), text)
        one = "*a*\\\n**b**\n\n---\n\n1. c\n2. d\n\n- e\n\n| f   | ggg |\n| --- | --- |\n\n```\nh\n```\n"
        self.assertEqual(tocmark.format(text, look="one"), one)
        self.assertEqual(tocmark.format("* a\n\n1. b\n", look="one", bullet="+", delimiter=")"), "+ a\n\n1) b\n")
        self.assertEqual(tocmark.format(text, look=""), tocmark.format(text))
        with self.assertRaisesRegex(ValueError, "look must be source or one, or empty, and not 'x'"):
            tocmark.format("a", look="x")

    def test_names_and_values_of_the_command(self):
        text = "+  a\n\n1) **b**\n\n~~~\nc\n~~~\n"
        kept = "+  a\n\n1) **b**\n\n~~~\nc\n~~~\n"
        self.assertEqual(tocmark.format(text, bullet="source", ordered="source", fence="source", strong="**"), kept)
        self.assertEqual(tocmark.format(text, bullet="", ordered="", fence="", strong=""), kept)
        self.assertEqual(tocmark.format(text, strong="__"), tocmark.format(text, strong="_"))
        self.assertEqual(tocmark.format(text, ordered="."), tocmark.format(text, delimiter="."))
        with self.assertRaisesRegex(TypeError, "ordered and delimiter are one option"):
            tocmark.format(text, ordered=".", delimiter=".")

    def test_blocks_of_other_syntaxes_stay(self):
        text = "a\n|b|\n|-|\n"
        self.assertTrue(tocmark.format(text).startswith("a\n\n|"))
        for others in ("commonmark", ["commonmark"], ("gfm", "commonmark")):
            self.assertEqual(tocmark.format(text, also_read=others), text)
            self.assertEqual(tocmark.format(text, also=others), text)
        self.assertEqual(tocmark.format(text, also_read="gfm", also="commonmark"), text)
        for name in ("also_read", "also"):
            with self.assertRaisesRegex(ValueError, "'x' is none of commonmark, gfm, all"):
                tocmark.format(text, **{name: ["x"]})

    def test_front_matter_stays(self):
        self.assertEqual(tocmark.format(FRONT + "a\n=\n"), FRONT + "# a\n")

    def test_errors(self):
        for part in ("bullet", "ordered", "delimiter", "emphasis", "strong", "fence"):
            self.refused("a", **{part: "x"})
            self.refused("a", **{part: "--"})
            self.refused("a", **{part: None})
        with self.assertRaisesRegex(ValueError, "'x' is none of source, first, increment"):
            tocmark.format("a", numbering="x")
        with self.assertRaisesRegex(ValueError, "'x' is none of source, backslash, spaces"):
            tocmark.format("a", hard_break="x")
        with self.assertRaisesRegex(ValueError, "'x' is none of ---, source"):
            tocmark.format("a", rule="x")
        with self.assertRaisesRegex(ValueError, "'x' is none of #, source"):
            tocmark.format("a", heading="x")
        with self.assertRaisesRegex(ValueError, "'x' is none of aligned, source"):
            tocmark.format("a", tables="x")
        with self.assertRaisesRegex(ValueError, "and not 0"):
            tocmark.format("a", table_width=0)
        with self.assertRaisesRegex(ValueError, "and not 2"):
            tocmark.format("a", fence_length=2)
        for size in ("80", True, 1.5):
            for part in ("table_width", "fence_length", "wrap"):
                with self.assertRaisesRegex(ValueError, f"{part} must be .* 1000, and not {size!r}"):
                    tocmark.format("a", **{part: size})
        with self.assertRaisesRegex(ValueError, "keep, no, sentence, or from 1 to 1000, and not 0"):
            tocmark.format("a", wrap=0)
        with self.assertRaisesRegex(ValueError, "source, marker or 4, and not 2"):
            tocmark.format("a", list_indent=2)
        with self.assertRaisesRegex(TypeError, r"^format\(\) got an unexpected keyword argument 'bulet'$"):
            tocmark.format("a", bulet="-")

    def test_lines_are_filled(self):
        self.assertEqual(tocmark.format("one\ntwo three\n", wrap=7), "one two\nthree\n")
        self.assertEqual(tocmark.format("one\ntwo\n", wrap="no"), "one two\n")
        self.assertEqual(tocmark.format("one\ntwo\n"), "one\ntwo\n")
        self.assertEqual(tocmark.format("One two. Three\nfour.\n", wrap="sentence"), "One two.\nThree four.\n")
        self.assertEqual(tocmark.format("- a\n\n  b\n", list_indent=4), "-   a\n\n    b\n")
        self.assertEqual(tocmark.format("-  a\n\n   b\n", list_indent="marker"), "- a\n\n  b\n")
        self.assertEqual(tocmark.format("-  a\n\n   b\n"), "-  a\n\n   b\n")

    def test_headings_keep_their_underline(self):
        self.assertEqual(tocmark.format("a\n=\n\n***\n"), "# a\n\n---\n")
        self.assertEqual(tocmark.format("a\n=\n\n***\n", heading="source"), "a\n=\n\n---\n")
        self.assertEqual(tocmark.format("a\n=\n\n***\n", look="source"), "a\n=\n\n***\n")

    def test_the_same_is_read(self):
        styles = ({}, {"bullet": "-", "ordered": ")", "numbering": "first", "emphasis": "_", "fence": "~", "hard_break": "backslash", "rule": "source", "table_width": 1},
                  {"tables": "source", "list_indent": "marker", "emphasis": "*", "strong": "__"})
        for text in examples():
            for style in styles:
                found = tocmark.format(text, syntax="all", **style)
                self.assertEqual(merged(tocmark.read(found, syntax="all")), merged(tocmark.read(text, syntax="all")), text)


class Comparing(unittest.TestCase):
    def test_what_no_page_shows_may_differ(self):
        pairs = [("[a](/b)", "[a][]\n\n[a]: /b"), ("    a\n", "```\na\n```\n"), ("<https://a.b/>", "[https://a.b/](https://a.b/)")]
        for old, new in pairs:
            with self.subTest(old=old):
                self.assertEqual(tocmark.compare(old, new), [])
                self.assertTrue(tocmark.same(old, new))
                self.assertFalse(tocmark.same(old, new, exact=True))
                self.assertTrue(tocmark.same(old, new, exact=True, allow=["labels", "fences", "definitions"]))

    def test_a_page_shows_bare_addresses_as_links(self):
        pairs = [("see http://a.b/c", "see <http://a.b/c>"), ("x@y.zz", "<x@y.zz>"), ("www.a.b", "[www.a.b](http://www.a.b)")]
        for old, new in pairs:
            with self.subTest(old=old):
                self.assertEqual(tocmark.compare(old, new), [])
                self.assertTrue(tocmark.same(old, new, syntax="all"))
                self.assertTrue(tocmark.same(old, new, extensions=["no-tables"]))
                self.assertFalse(tocmark.same(old, new, exact=True))
                self.assertFalse(tocmark.same(old, new, exact=True, allow=["labels", "fences", "definitions"]))
                self.assertFalse(tocmark.same(old, new, syntax="commonmark"))
                self.assertFalse(tocmark.same(old, new, syntax="commonmark", extensions=["tables"]))

    def test_each_kind_may_differ(self):
        pairs = {"wrap": ("a b", "a\nb"), "text": ("a", "b"), "destinations": ("[a](/b)", "[a](/c)"),
                 "titles": ("[a](/b 'c')", "[a](/b 'd')"), "labels": ("[a][b]\n\n[b]: /c", "[a][B]\n\n[b]: /c"),
                 "fences": ("    a\n", "```\na\n```\n"), "levels": ("# a", "## a"), "numbers": ("1. a", "2. a"),
                 "code": ("`a`", "`b`"), "info": ("```a\n```", "```b\n```"), "html": ("<a>\n", "<b>\n"),
                 "front-matter": ("---\na: b\n---\n", "---\na: c\n---\n"), "definitions": ("[a]: /b", "")}
        self.assertEqual(set(pairs), set(tocmark.KINDS))
        for kind, (old, new) in pairs.items():
            with self.subTest(kind=kind):
                self.assertTrue(tocmark.same(old, new, allow=[kind], exact=True))
                others = [other for other in pairs if other not in (kind, "text")]
                self.assertFalse(tocmark.same(old, new, allow=others, exact=True))

    def test_differences(self):
        found = tocmark.compare("# a\n\nb \"c\"\n", "## a\n\nb \\\\d\n\n- e\n")
        self.assertEqual([(it.kind, it.old, it.new) for it in found],
                         [("level", (1, 1), (1, 1)), ("text", (3, 3), (3, 3)), ("added", (3, 3), (5, 5))])
        self.assertEqual((found[1].was, found[1].is_), ('"c"', "\\d"))
        self.assertEqual([str(it) for it in found], [it.message for it in found])

    def test_texts_with_controls_and_others(self):
        difference, = tocmark.compare("`a\t\x01\x7f\u00e9\U0001f600`", "`b`")
        self.assertEqual(difference.was, "a\t\x01\x7f\u00e9\U0001f600")

    def test_the_same_is_said(self):
        for text in examples():
            self.assertEqual(tocmark.compare(text, text, exact=True), [])
            self.assertEqual(tocmark.compare(text, tocmark.format(text, bullet="-"), exact=True), [])

    def test_errors(self):
        with self.assertRaisesRegex(ValueError, "'words' is none of wrap, text, destinations"):
            tocmark.same("", "", allow=["words"])
        with self.assertRaisesRegex(TypeError, "allow must be a list of kinds"):
            tocmark.compare("", "", allow="wrap")
        with self.assertRaisesRegex(TypeError, "new must be a str"):
            tocmark.compare("", b"")
        with self.assertRaises(UnicodeEncodeError):
            tocmark.compare("", "\ud800")
        with self.assertRaises(ValueError):
            tocmark.compare("", "", syntax="none")


@unittest.skipUnless(has_program(), "tocmark-format is neither built nor installed")
class Files(unittest.TestCase):
    def setUp(self):
        folder = tempfile.TemporaryDirectory()
        self.addCleanup(folder.cleanup)
        self.folder = folder.name
        self.path = self.put("a.md", "#  a\r\n")

    def put(self, name, text):
        path = os.path.join(self.folder, name)
        with open(path, "w", encoding="utf-8", newline="") as file:
            file.write(text)
        return path

    def has(self, path, text):
        with open(path, encoding="utf-8", newline="") as file:
            self.assertEqual(file.read(), text)
        self.assertEqual([name for name in os.listdir(self.folder) if name.startswith(".")], [])

    def test_a_file_is_replaced(self):
        os.chmod(self.path, 0o640)
        self.assertTrue(tocmark.format_file(self.path, check=True))
        self.has(self.path, "#  a\r\n")
        self.assertTrue(tocmark.format_file(self.path))
        self.has(self.path, "# a\r\n")
        self.assertEqual(stat.S_IMODE(os.stat(self.path).st_mode), 0o640)
        number = os.stat(self.path).st_ino
        self.assertFalse(tocmark.format_file(self.path))
        self.assertEqual(os.stat(self.path).st_ino, number)

    def test_a_configuration_counts(self):
        self.put(".tocmark.toml", 'bullet = "-"\nexclude = ["b.md"]\n')
        self.put("a.md", "* a\r\n")
        other = self.put("b.md", "* a\n")
        self.assertEqual([tocmark.format_file(it) for it in (self.path, other)], [True, False])
        self.assertTrue(tocmark.format_file(self.path, bullet="+", syntax="commonmark", extensions=["tables"], also_read="gfm"))
        self.put(".tocmark.toml", "bulet = 1\n")
        with self.assertRaisesRegex(tocmark.InvalidStyle, "bulet"):
            tocmark.format_file(self.path)
        os.unlink(os.path.join(self.folder, ".tocmark.toml"))
        self.has(self.path, "+ a\r\n")
        self.has(other, "* a\n")

    def test_wrong_arguments(self):
        for wrong, fault in (({"bullet": "x"}, tocmark.InvalidStyle), ({"syntax": "x"}, ValueError), ({"extensions": "tables"}, TypeError),
                             ({"also": "x"}, ValueError), ({"wrap": 0}, ValueError), ({"bulet": "-"}, TypeError)):
            with self.assertRaises(fault):
                tocmark.format_file(self.path, **wrong)
        self.has(self.path, "#  a\r\n")

    def test_the_program_is_found(self):
        with mock.patch.dict(os.environ, TOCMARK_FORMAT="/bin/cat"), self.assertRaisesRegex(FileNotFoundError, "/bin/cat, which isn't"):
            tocmark.format_file(self.path)
        with mock.patch.dict(os.environ, TOCMARK_FORMAT=""), mock.patch.object(_program, "_places", return_value=iter([])):
            _program._find.cache_clear()
            with self.assertRaisesRegex(FileNotFoundError, "neither in this package nor on PATH"):
                tocmark.format_file(self.path)
        _program._find.cache_clear()

    def test_a_link_is_followed(self):
        self.put("a.md", "*  a\r\n")
        link = os.path.join(self.folder, "link.md")
        os.symlink("a.md", link)
        self.assertTrue(tocmark.format_file(link, bullet="-"))
        self.assertTrue(os.path.islink(link))
        self.has(self.path, "-  a\r\n")

    def test_a_file_stays_after_an_error(self):
        with mock.patch("os.rename", side_effect=OSError("no")), self.assertRaises(OSError):
            tocmark.format_file(self.path)
        self.has(self.path, "#  a\r\n")
        with mock.patch("os.fsync", side_effect=lambda _: self.put("a.md", "b\n")), self.assertRaisesRegex(OSError, "meanwhile"):
            tocmark.format_file(self.path)
        self.has(self.path, "b\n")
        with self.assertRaises(OSError):
            tocmark.format_file("/dev/null/a.md")
        with open(self.path, "wb") as file:
            file.write(b"caf\xe9\n")
        with self.assertRaises(UnicodeDecodeError):
            tocmark.format_file(self.path)

    def swap_at_sync(self, swap):
        """Formats the file while this is done before the new one is renamed over it."""
        with mock.patch("os.fsync", side_effect=lambda _: swap()):
            tocmark.format_file(self.path)

    def test_a_name_that_is_swapped_leads_nowhere(self):
        victim = os.path.join(self.folder, "victim")
        self.put("victim", "secret\n")
        os.chmod(victim, 0o600)

        def swap():
            for name in os.listdir(self.folder):
                if name.endswith(".tocmark"):
                    os.unlink(os.path.join(self.folder, name))
                    os.symlink("victim", os.path.join(self.folder, name))

        with self.assertRaisesRegex(OSError, "meanwhile"):
            self.swap_at_sync(swap)
        self.has(victim, "secret\n")
        self.has(self.path, "#  a\r\n")
        self.assertEqual(stat.S_IMODE(os.stat(victim).st_mode), 0o600)
        self.assertEqual(sorted(os.listdir(self.folder)), ["a.md", "victim"])

    def test_another_file_of_the_name_stays(self):
        def swap():
            os.rename(self.path, self.path + ".old")
            self.put("a.md", "#  a\r\n")

        with self.assertRaisesRegex(OSError, "meanwhile"):
            self.swap_at_sync(swap)
        self.has(self.path, "#  a\r\n")

    def test_another_folder_of_the_name_stays(self):
        inner, other = os.path.join(self.folder, "inner"), os.path.join(self.folder, "other")
        for folder in (inner, other):
            os.mkdir(folder)
            self.put(os.path.join(folder, "a.md"), "#  a\r\n")
        self.path = os.path.join(inner, "a.md")

        def swap():
            os.rename(inner, inner + ".old")
            os.symlink("other", inner)

        self.swap_at_sync(swap)
        self.has(os.path.join(other, "a.md"), "#  a\r\n")
        self.has(os.path.join(inner + ".old", "a.md"), "# a\r\n")

    def test_a_read_only_file_stays(self):
        os.chmod(self.path, 0o444)
        with self.assertRaisesRegex(PermissionError, "read-only"):
            tocmark.format_file(self.path)
        self.assertTrue(tocmark.format_file(self.path, check=True))
        self.has(self.path, "#  a\r\n")

    def test_an_access_control_list_stays(self):
        def entries(*entries):
            return struct.pack("<I", 2) + b"".join(struct.pack("<HHI", *entry) for entry in entries)

        nobody = 0xFFFFFFFF
        wanted = entries((1, 6, nobody), (2, 6, 1235), (4, 0, nobody), (0x10, 6, nobody), (0x20, 0, nobody))
        try:
            os.setxattr(self.path, "system.posix_acl_access", wanted)
            os.setxattr(self.folder, "system.posix_acl_default", entries((1, 7, nobody), (2, 7, 1236), (4, 7, nobody), (0x10, 7, nobody), (0x20, 7, nobody)))
        except OSError as fault:
            self.skipTest(f"no access control lists here: {fault}")
        self.assertTrue(tocmark.format_file(self.path))
        self.assertEqual(os.getxattr(self.path, "system.posix_acl_access"), wanted)
        os.removexattr(self.path, "system.posix_acl_access")
        os.chmod(self.path, 0o640)
        self.put("a.md", "#  a\r\n")
        self.assertTrue(tocmark.format_file(self.path))
        self.assertNotIn("system.posix_acl_access", os.listxattr(self.path))


class Commands(unittest.TestCase):
    def setUp(self):
        folder = tempfile.TemporaryDirectory()
        self.addCleanup(folder.cleanup)
        self.path = os.path.join(folder.name, "a.md")
        with open(self.path, "w", encoding="utf-8") as file:
            file.write(ODD)

    def run_module(self, *words, given="", status=0):
        done = subprocess.run([sys.executable, "-m", "tocmark", *words], input=given.encode(), capture_output=True, check=False)
        self.assertEqual(done.returncode, status, done.stderr.decode())
        self.said = done.stderr.decode()
        return done.stdout.decode()

    def test_events(self):
        events = self.run_module("read", self.path)
        self.assertEqual(self.run_module("read", given=ODD), events)
        changed = events.replace("/old", "/new")
        self.assertEqual(self.run_module("rewrite", "--source", self.path, given=changed), ODD.replace("/old", "/new"))
        self.assertEqual(self.run_module("rewrite", "--source", self.path, "--in-place", given=changed), "")
        with open(self.path, encoding="utf-8") as file:
            self.assertEqual(file.read(), ODD.replace("/old", "/new"))
        self.assertEqual(self.run_module("write", "--unchecked", given='["Rule"]'), "---\n")
        short = "|a|b|\n|-|-|\n|1|\n"
        self.assertEqual([event for event, _ in json.loads(self.run_module("read", given=short))], [event for event, _ in tocmark.read(short)])
        self.run_module("rewrite", "--source", self.path, given='["Rule", 1]', status=1)
        self.assertEqual(self.said, "tocmark: event 1: found 1, expected an event, by its name or as an object with its name as the only key\n")
        for wrong in ("[", "[" * 100_000):
            self.run_module("write", given=wrong, status=1)
            self.assertTrue(self.said.startswith("tocmark: "), self.said[:100])

    @unittest.skipUnless(has_program(), "tocmark-format is neither built nor installed")
    def test_formatting(self):
        for words, given in ((["--bullet", "-"], "*  a"), (["--check", self.path], ""), (["--check", "--diff", "."], ""), (["--bulet"], ""),
                             (["--help"], ""), (["--verbose", self.path], ""), (["--check", self.path], ""), ([self.path + "x"], "")):
            done = subprocess.run([_program.program(), *words], input=given.encode(), capture_output=True, check=False)
            if words[0] == "--verbose":
                with open(self.path, "w", encoding="utf-8") as file:
                    file.write(ODD)
            self.assertEqual(self.run_module("format", *words, given=given, status=done.returncode), done.stdout.decode())
            self.assertEqual(self.said, done.stderr.decode())

    def test_arguments(self):
        for words in ([], ["nothing"], ["read", "--syntax", "x"], ["rewrite"], ["mdbook"], ["mdbook", "--"], ["mdbook", "x", "--", "cat"]):
            self.run_module(*words, status=2)
        self.assertEqual(self.run_module("--version"), "tocmark 0.1.0\n")
        self.assertIn("mdbook", self.run_module("--help"))


def chapter(name, content, *inner):
    return {"Chapter": {"name": name, "content": content, "number": [1], "sub_items": list(inner), "path": f"{name}.md", "parent_names": []}}


class Books(unittest.TestCase):
    def setUp(self):
        self.book = {"sections": [chapter("a", "# é\n\n\n*  a\n", chapter("b", "b\n=\n")), "Separator", {"PartTitle": "c"},
                                  chapter("d", "## d {#e}\n\n\n***\n")], "__non_exhaustive": None}
        self.given = json.dumps([{"root": "/x", "renderer": "html"}, self.book])

    def lowered(self, text):
        return text.replace("# é", "## é").replace("b\\n=\\n", "b\\n-\\n").replace("## d", "### d")

    def run_main(self, words, given, change=lower, **wishes):
        output = mock.Mock(buffer=io.BytesIO())
        said = io.StringIO()
        with mock.patch.multiple(sys, argv=["x", *words], stdin=mock.Mock(buffer=io.BytesIO(given.encode())), stdout=output,
                                 stderr=said), self.assertRaises(SystemExit) as caught:
            tocmark.mdbook(change, **wishes)
        return caught.exception.code, output.buffer.getvalue().decode(), said.getvalue()

    def test_each_chapter_is_changed_and_nothing_else(self):
        status, written, said = self.run_main([], self.given)
        self.assertEqual((status, said), (0, ""))
        self.assertEqual(written, self.lowered(json.dumps(self.book, ensure_ascii=False)))
        newer = json.dumps([{}, {"items": self.book["sections"]}])
        self.assertEqual(json.loads(self.run_main([], newer)[1])["items"], json.loads(written)["sections"])

    def test_a_whole_chapter_is_changed(self):
        def note(events, chapter):
            if chapter.name == "b":
                events.clear()
                return None
            return [*tocmark.read(f"{chapter.path} {chapter.context['renderer']} {len(chapter.source)}"), *events]

        status, written, said = self.run_main([], self.given, None, chapter=note)
        self.assertEqual((status, said), (0, ""))
        a, b = json.loads(written)["sections"][0]["Chapter"], json.loads(written)["sections"][0]["Chapter"]["sub_items"][0]["Chapter"]
        self.assertEqual(a["content"], "a.md html 11\n\n# é\n\n\n*  a\n")
        self.assertEqual(b["content"], "")
        for wrong in ({}, {"change": lower, "chapter": note}):
            with self.assertRaisesRegex(TypeError, "either change or chapter"):
                tocmark.mdbook(**wrong)

    def test_a_command_knows_the_chapter_and_the_book(self):
        script = ("import json, os, sys; pairs = json.load(sys.stdin); context = json.loads(os.environ['TOCMARK_MDBOOK']); "
                  "json.dump([*pairs, *[[event, None] for event in ({'Start': 'Paragraph'}, "
                  "{'Text': os.environ['TOCMARK_FILE'] + ' ' + context['renderer']}, {'End': 'Paragraph'})]], sys.stdout)")
        command = [sys.executable, "-m", "tocmark", "mdbook", "--", sys.executable, "-c", script]
        short = json.dumps([{"renderer": "html"}, {"items": [chapter("a", "|a|b|\n|-|-|\n|1|\n")]}])
        done = subprocess.run(command, input=short.encode(), capture_output=True, check=True)
        self.assertEqual(json.loads(done.stdout)["items"][0]["Chapter"]["content"], "|a|b|\n|-|-|\n|1|\n\na.md html\n")

    def run_once(self, script, given=None, status=0):
        command = [sys.executable, "-m", "tocmark", "mdbook", "--once", "--", sys.executable, "-c", script]
        done = subprocess.run(command, input=(given or self.given).encode(), capture_output=True, check=False,
                              env={**os.environ, "TOCMARK_FILE": "x"})
        self.assertEqual(done.returncode, status, done.stderr)
        return done.stdout.decode(), done.stderr.decode()

    def test_a_command_starts_once_for_all_chapters(self):
        script = ("import json, os, sys\n"
                  "lines = [json.loads(line) for line in sys.stdin]\n"
                  "assert 'TOCMARK_FILE' not in os.environ\n"
                  "for number, one in enumerate(lines):\n"
                  "    words = f\"{number} {one['file']} {one['name']} {json.loads(os.environ['TOCMARK_MDBOOK'])['renderer']}\"\n"
                  "    print(json.dumps([[event, None] for event in ({'Start': 'Paragraph'}, {'Text': words}, {'End': 'Paragraph'})]"
                  " + one['events']))\n")
        items = json.loads(self.run_once(script)[0])["sections"]
        self.assertEqual(items[0]["Chapter"]["content"], "0 a.md a html\n\n# é\n\n\n*  a\n")
        self.assertEqual(items[0]["Chapter"]["sub_items"][0]["Chapter"]["content"], "1 b.md b html\n\nb\n=\n")
        self.assertEqual(items[3]["Chapter"]["content"], "2 d.md d html\n\n## d {#e}\n\n\n***\n")
        same = "import json, sys; [print(json.dumps(json.loads(line)['events'])) for line in sys.stdin]"
        self.assertEqual(self.run_once(same)[0], json.dumps(self.book, ensure_ascii=False))
        self.assertEqual(json.loads(self.run_once(same, "[{}, {\"items\": []}]")[0]), {"items": []})

    def test_what_a_command_for_all_chapters_does_wrong(self):
        for script, said in (("print([])", "tocmark: the command has to write a line for each chapter: it wrote 1 for 3\n"),
                             ("import sys; sys.exit(3)", "tocmark: Command "),
                             ("import sys; [print(line, end='') for line in sys.stdin]", "tocmark: a.md: "),
                             ("print('[]\\n[]\\n]')", "tocmark: d.md: ")):
            written, heard = self.run_once(script, status=1)
            self.assertEqual(written, "")
            self.assertTrue(heard.startswith(said), heard)

    def test_a_long_context_is_left_out(self):
        given = json.dumps([{"x": "y" * 131_072}, {"items": [chapter("a", "a\n")]}])
        script = "import os, sys; assert 'TOCMARK_MDBOOK' not in os.environ; sys.stdout.write(sys.stdin.read())"
        command = [sys.executable, "-m", "tocmark", "mdbook", "--", sys.executable, "-c", script]
        done = subprocess.run(command, input=given.encode(), capture_output=True, check=True)
        self.assertEqual(json.loads(done.stdout), json.loads(given)[1])
        self.assertEqual(done.stderr, b"tocmark: warning: TOCMARK_MDBOOK isn't set, because the book's context is too long for it\n")

    def test_renderers(self):
        self.assertEqual(self.run_main(["supports", "html"], ""), (0, "", ""))

    def test_errors_name_the_chapter(self):
        status, written, said = self.run_main([], self.given, lambda event: {"Text": 1} if event == {"Text": "b"} else None)
        self.assertEqual((status, written), (1, ""))
        self.assertTrue(said.startswith("tocmark: b.md: event 1: "), said)
        for given in ("", "[]", "{}", "[1, 2]", "[1, 2, 3]"):
            self.assertEqual(self.run_main([], given)[0], 1, given)

    def test_a_command_is_a_preprocessor(self):
        command = [sys.executable, "-m", "tocmark", "mdbook", "--", "sed", 's/"H2"/"H3"/g; s/"H1"/"H2"/g']
        done = subprocess.run(command, input=self.given.encode(), capture_output=True, check=True)
        self.assertEqual(done.stdout.decode(), self.lowered(json.dumps(self.book, ensure_ascii=False)))
        self.assertEqual(subprocess.run([*command, "supports", "html"], stdin=subprocess.DEVNULL, check=False).returncode, 0)
        for words in (["false"], ["/nothing"], ["echo"]):
            done = subprocess.run([*command[:5], *words], input=self.given.encode(), capture_output=True, check=False)
            self.assertEqual((done.returncode, done.stdout), (1, b""))
            self.assertTrue(done.stderr.startswith(b"tocmark: a.md: "), done.stderr)

    def test_chapters_are_found_without_recursion(self):
        inner = chapter("z", "z\n")
        for _ in range(300):
            inner = chapter("y", "y\n", inner)
        self.assertEqual(sum(1 for _ in _mdbook.chapters({"items": [inner]})), 301)


class Imports(unittest.TestCase):
    def test_another_library_is_named(self):
        done = subprocess.run([sys.executable, "-c", "import tocmark"], env={**os.environ, "TOCMARK_LIBRARY": "libc.so.6"},
                              capture_output=True, check=False)
        self.assertIn("ImportError: libc.so.6 isn't the library of tocmark: it has no tocmark_version", done.stderr.decode())

    @unittest.skipIf(sys.version_info < (3, 11), "typing has no Unpack")
    def test_types_are_found(self):
        for call in (tocmark.write, tocmark.rewrite, tocmark.edit, tocmark.format, tocmark.format_file):
            self.assertIn("return", typing.get_type_hints(call))


class Threads(unittest.TestCase):
    def test_two_threads_answer_the_same(self):
        texts = examples()
        wanted = [tocmark.write(tocmark.read(text), text, check_document=False) for text in texts]
        found = [[], []]

        def work(answers):
            answers.extend(tocmark.write(tocmark.read(text), text, check_document=False) for text in texts)

        threads = [threading.Thread(target=work, args=(answers,)) for answers in found]
        for thread in threads:
            thread.start()
        for thread in threads:
            thread.join()
        self.assertEqual(found, [wanted, wanted])


if __name__ == "__main__":
    unittest.main()
