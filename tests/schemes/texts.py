#!/usr/bin/env python3
"""The text of a scheme: every fault with the line and column it is promised at, and the way from bytes to text and back."""
import collections
import contextlib
import functools
import glob
import importlib.machinery
import importlib.util
import io
import os
import random
import re
import subprocess
import sys
import tempfile
import types
import unittest

TOOL = "tools/scheme"
HEAD = "n 2\norbit 0 2\nnode 0 preserved 0 2 -> _ 2\nnode 1 added -> 1 2\n"
PAIR = "n 2\norbit 0\nnode 0 preserved 0 -> 0\nnode 1 preserved 0 -> 0\n"
GROWN = "n 2\norbit\nnode 0 preserved ->\nnode 1 added ->\nnode 2 deleted ->\nnode 3 added ->\n"

# (what is wrong, the text, the line and column, a part of the message)
FAULTS = [
    ("an empty text", "", "1:1", "the text ends here, expected a line 'n ..' first"),
    ("comments only", "# nothing\n\n", "3:1", "the text ends here, expected a line 'n ..' first"),
    ("a word that starts no line", "n 2\norbits 0\n", "2:1", "found 'orbits', expected a line that starts with n, orbit"),
    ("n is 4", "n 4\n", "1:3", "found '4', expected the dimension of the map, 2 or 3"),
    ("a digit of another script", "n \u00b2\n", "1:3", "found '\u00b2', expected the dimension of the map, 2 or 3"),
    ("n is missing", "orbit 0\n", "1:1", "found 'orbit', expected a line 'n ..' first"),
    ("n alone", "n\n", "1:2", "found the end of the line, expected the dimension of the map"),
    ("n twice", "n 2\nn 2\n", "2:1", "found a second 'n' line"),
    ("two numbers after n", "n 2 3\n", "1:5", "found '3', expected the end of the line"),
    ("no nodes", "n 2\norbit 0\n", "3:1", "the text ends here, expected a line 'node ..' first"),
    ("orbit type not ascending", "n 2\norbit 2 0\n", "2:9", "found 0 after 2, expected the orbit type's dimensions ascending"),
    ("orbit type with 3 where n is 2", "n 2\norbit 0 3\n", "2:9", "found '3', expected a dimension 0, 1 or 2"),
    ("a huge number", "n 2\norbit 99999999999999999999\n", "2:7", "expected a dimension 0, 1 or 2"),
    ("a sign that is nowhere used", "n 2\norbit 0; 2\n", "2:8", "found ';', expected a dimension"),
    ("nodes out of order", "n 2\norbit\nnode 1 added ->\n", "3:6", "found '1', expected node number 0"),
    ("a kind that there is not", "n 2\norbit\nnode 0 kept ->\n", "3:8", "found 'kept', expected the node's kind"),
    ("a left word too short", "n 2\norbit 0 2\n  node 0 preserved 0 -> _ 2\n", "3:22", "found '->', expected 2 entries in the left word of node 0"),
    ("a left word too long", "n 2\norbit 0\nnode 0 preserved 0 2 -> 0\n", "3:20", "found '2', expected '->' and the right word"),
    ("a right word too short", "n 2\norbit 0 2\nnode 0 preserved 0 2 -> 2\n", "3:26", "found the end of the line, expected 2 entries in the right word"),
    ("a right word too long", "n 2\norbit 0\nnode 0 preserved 0 -> 0 2 # more\n", "3:25", "found '2', expected the end of the line"),
    ("a dimension twice in a word", "n 2\norbit 0 2\nnode 0 preserved 0 2 -> 2 2\n", "3:27", "found 2 twice in a word"),
    ("a left word of an added node", "n 2\norbit 0\nnode 0 preserved 0 -> 0\nnode 1 added 0 -> 0\n", "4:14",
     "found '0', expected '->', as an added node has no left word"),
    ("a right word of a deleted node", "n 2\norbit 0\nnode 0 deleted 0 -> _\n", "3:21",
     "found '_', expected the end of the line, as a deleted node has no right word"),
    ("seventeen nodes", "n 2\norbit\n" + "".join(f"node {v} added ->\n" for v in range(17)), "19:6", "expected at most 16 nodes"),
    ("a node after an arc", HEAD + "right 0: 0-1\nnode 2 added -> 1 2\n", "6:1", "found 'node' after 'right', expected the order n, orbit, node"),
    ("left after right", HEAD + "right 0: 0-1\nleft 1: 0-0\n", "6:1", "found 'left' after 'right'"),
    ("a donor for a preserved node", GROWN + "donors 0:0 1:0 3:0\n", "7:8",
     "found node 0, which is preserved, expected node 1 and its donor, as each added node has one, ascending"),
    ("a donor for a deleted node", GROWN + "donors 1:0 2:0 3:0\n", "7:12", "found node 2, which is deleted, expected node 3 and its donor"),
    ("a donor for a preserved node at the end", HEAD + "donors 1:0 0:0\n", "5:12",
     "found node 0, which is preserved, expected the end of the line, as no other node is added"),
    ("a donor for no node", GROWN + "donors 1:0 4:0\n", "7:12", "found '4', expected node 3 and its donor"),
    ("the first added node is missing", GROWN + "donors 3:0\n", "7:8", "found node 3, expected node 1 and its donor, as each added node has one, ascending"),
    ("the last added node is missing", GROWN + "donors 1:0 # and 3\n", "7:11", "found the end of the line, expected node 3 and its donor"),
    ("added nodes, and donors alone", GROWN + "donors\n", "7:7", "found the end of the line, expected node 1 and its donor"),
    ("added nodes out of order", GROWN + "donors 3:0 1:0\n", "7:8", "found node 3, expected node 1 and its donor"),
    ("an added node twice", GROWN + "donors 1:0 1:2 3:0\n", "7:12", "found node 1, expected node 3 and its donor"),
    ("the last added node twice", GROWN + "donors 1:0 3:2 3:2\n", "7:16", "found node 3, expected the end of the line, as no other node is added"),
    ("an added donor", GROWN + "donors 1:0 3:1\n", "7:14", "found node 1, which is added, expected a node that is there on the left"),
    ("a later donor that is added", GROWN + "donors 1:3 3:0\n", "7:10", "found node 3, which is added, expected a node that is there on the left"),
    ("a node as its own donor", GROWN + "donors 1:1 3:0\n", "7:10", "found node 1, which is added, expected a node that is there on the left"),
    ("a donor not below the count", GROWN + "donors 1:4 3:0\n", "7:10", "found '4', expected a node number from 0 to 3"),
    ("a donor where no node is there on the left", "n 2\norbit\nnode 0 added ->\ndonors 0:0\n", "4:10",
     "found node 0, which is added, expected a node that is there on the left"),
    ("no donor after the colon", GROWN + "donors 1:\n", "7:10", "found the end of the line, expected a node number from 0 to 3"),
    ("no colon", GROWN + "donors 1 0\n", "7:10", "found '0', expected ':' and the donor of node 1"),
    ("a dash in place of the colon", GROWN + "donors 1-0\n", "7:9", "found '-', expected ':' and the donor of node 1"),
    ("a word after donors", GROWN + "donors all:0\n", "7:8", "found 'all', expected node 1 and its donor"),
    ("a donor where no node is added", PAIR + "donors 0:1\n", "5:8",
     "found node 0, which is preserved, expected the end of the line, as no other node is added"),
    ("a word where no node is added", PAIR + "donors none\n", "5:8", "found 'none', expected the end of the line, as no other node is added"),
    ("donors twice", GROWN + "donors 1:0 3:0\ndonors 1:0 3:0\n", "8:1", "found a second 'donors' line, expected one"),
    ("donors twice where no node is added", PAIR + "donors\ndonors\n", "6:1", "found a second 'donors' line, expected one"),
    ("donors before the nodes", "n 2\norbit\ndonors\n", "3:1", "found 'donors', expected a line 'node ..' first"),
    ("a node after the donors", GROWN + "donors 1:0 3:0\nnode 4 added ->\n", "8:1",
     "found 'node' after 'donors', expected the order n, orbit, node, donors, hook, left, right, bytes"),
    ("donors after the hook", PAIR + "hook 1\ndonors\n", "6:1", "found 'donors' after 'hook'"),
    ("donors after an arc", HEAD + "right 0: 0-1\ndonors 1:0\n", "6:1", "found 'donors' after 'right'"),
    ("bytes without the mark of the donors", HEAD + "donors 1:0\nbytes 2 2\n", "6:7", "found 2 as byte 1 of the scheme, expected 18"),
    ("bytes with the mark and no donors", HEAD + "bytes 18 2\n", "5:7", "found 18 as byte 1 of the scheme, expected 2"),
    ("bytes with the mark of the second hook in place of the donors'", GROWN + "donors 1:0 3:0\nbytes 34 0\n", "8:7",
     "found 34 as byte 1 of the scheme, expected 18"),
    ("another donor in the bytes", GROWN + "donors 1:0 3:2\nbytes 18 0 4 2 3 0 1 3 0\n", "8:24", "found 0 as byte 9 of the scheme, expected 2"),
    ("node 0 as the second hook", PAIR + "hook 0\n", "5:6", "found '0', expected the second hook: another node than 0, which is the first"),
    ("a second hook where there is one node", "n 2\norbit\nnode 0 preserved ->\nhook 1\n", "4:6", "found '1', expected the second hook: another node than 0"),
    ("a second hook not below the count", PAIR + "node 2 preserved 0 -> 0\nhook 3\n", "6:6", "found '3', expected a node number from 1 to 2"),
    ("an added second hook", HEAD + "hook 1\n", "5:6", "found node 1, which is added, expected a node that is there on the left"),
    ("hook alone", PAIR + "hook\n", "5:5", "found the end of the line, expected a node number 1"),
    ("a word after hook", PAIR + "hook one\n", "5:6", "found 'one', expected a node number 1"),
    ("two numbers after hook", PAIR + "hook 1 0\n", "5:8", "found '0', expected the end of the line"),
    ("hook twice", PAIR + "hook 1\nhook 1\n", "6:1", "found a second 'hook' line, expected one"),
    ("a hook before the nodes", "n 2\norbit\nhook 1\n", "3:1", "found 'hook', expected a line 'node ..' first"),
    ("a node after the hook", PAIR + "hook 1\nnode 2 added -> 0\n", "6:1",
     "found 'node' after 'hook', expected the order n, orbit, node, donors, hook, left, right, bytes"),
    ("a hook after an arc", PAIR + "left 2: 0-0\nhook 1\n", "6:1", "found 'hook' after 'left'"),
    ("bytes without the mark of the second hook", PAIR + "hook 1\nbytes 2 1 0\n", "6:7", "found 2 as byte 1 of the scheme, expected 34"),
    ("bytes with the mark and no second hook", PAIR + "bytes 34 1 0\n", "5:7", "found 34 as byte 1 of the scheme, expected 2"),
    ("another second hook in the bytes", PAIR + "node 2 deleted 0 ->\nhook 1\nbytes 34 1 0 3 2 0 0 2 0 0 1 0 255 2\n", "7:36",
     "found 2 as byte 14 of the scheme, expected 1"),
    ("an arc without its dimension", HEAD + "right 0-1\n", "5:8", "found '-', expected ':' and the arcs"),
    ("an arc of dimension 3 where n is 2", HEAD + "right 3: 0-1\n", "5:7", "found '3', expected a dimension 0, 1 or 2"),
    ("no arcs after the colon", HEAD + "right 0:\n", "5:9", "found the end of the line, expected an arc"),
    ("an arc with one end", HEAD + "right 0: 0\n", "5:11", "found the end of the line, expected '-'"),
    ("an arc to no node", HEAD + "right 0: 0-2\n", "5:12", "found '2', expected a node number from 0 to 1"),
    ("the larger node first", HEAD + "right 0: 1-0\n", "5:10", "found 1-0, expected the smaller node first: 0-1"),
    ("an arc twice", HEAD + "right 0: 0-1\nright 0: 0-1\n", "6:10", "found the right arc 0: 0-1 twice"),
    ("a left arc at an added node", HEAD + "left 0: 0-1\n", "5:11", "found node 1, which is added, expected a node that is there on the left"),
    ("a right arc at a deleted node", "n 2\norbit\nnode 0 deleted ->\nright 0: 0-0\n", "4:10",
     "found node 0, which is deleted, expected a node that is there on the right"),
    ("a byte over 255", HEAD + "bytes 2 256\n", "5:9", "found '256', expected a byte, 0 to 255"),
    ("another byte", HEAD + "bytes 2 2 0 2 2 2 0 2 255 1\n", "5:27", "found 1 as byte 10 of the scheme, expected 2"),
    ("a byte too few", HEAD + "bytes 2 2 0 2 2 2 0 2 255 2 3 255 255 1 2\nbytes 0\n", "6:7", "found 16 bytes up to here, expected 17; the next is 0"),
    ("a byte too many", HEAD + "bytes 2 2 0 2 2 2 0 2 255 2 3 255 255 1 2\nbytes 0 0 0\n", "6:11", "found a byte more, expected 17 bytes"),
]

# (what is wrong, the bytes, the byte counted from 1, a part of the message)
BYTE_FAULTS = [
    ("nothing", [], 1, "found the end, expected the dimension"),
    ("n is 4", [4], 1, "found 4, expected the dimension"),
    ("n is 4, with a second hook", [36], 1,
     "found 36, expected the dimension of the map, 2 or 3, 16 more where added nodes have donors, and 32 more where there is a second hook"),
    ("n is 4, with donors", [20], 1, "found 20, expected the dimension"),
    ("n is 1, with both marks", [49], 1, "found 49, expected the dimension"),
    ("n is 4, with both marks", [52], 1, "found 52, expected the dimension"),
    ("the mark of donors alone", [16], 1, "found 16, expected the dimension"),
    ("the mark of a second hook alone", [32], 1, "found 32, expected the dimension"),
    ("the marks alone", [48], 1, "found 48, expected the dimension"),
    ("a mark that there is not", [66], 1, "found 66, expected the dimension"),
    ("orbit type too long", [2, 4], 2, "found 4, expected the number of dimensions in the orbit type, 0 to 3"),
    ("orbit type not ascending", [2, 2, 1, 1], 4, "found 1, expected a dimension of the orbit type"),
    ("seventeen nodes", [2, 0, 17], 3, "found 17, expected the number of nodes, 1 to 16"),
    ("kind 4", [2, 0, 1, 4], 4, "found 4, expected the kind of node 0"),
    ("a dimension twice in a word", [2, 2, 0, 1, 1, 2, 0, 0], 8, "found 0, expected in the left word of node 0 a dimension not yet in it"),
    ("a right word of a deleted node", [2, 1, 0, 1, 1, 0, 0], 7, "found 0, expected 255, as node 0 is deleted"),
    ("an added donor", [18, 0, 3, 2, 3, 0, 3, 1, 0, 0], 8, "found 1, expected the donor of node 2: a node that is there on the left, 0\n"),
    ("a node as its own donor", [18, 0, 2, 2, 3, 1, 0, 0], 6, "found 1, expected the donor of node 1: a node that is there on the left, 0\n"),
    ("a later donor that is added", [19, 0, 4, 2, 1, 3, 3, 3, 0, 0, 0], 7, "found 3, expected the donor of node 2: a node that is there on the left, 0 or 1\n"),
    ("a donor not below the count", [18, 0, 2, 2, 3, 2, 0, 0], 6, "found 2, expected the donor of node 1: a node that is there on the left, below 2\n"),
    ("a donor that removes", [18, 0, 2, 2, 3, 255, 0, 0], 6, "found 255, expected the donor of node 1"),
    ("a donor where no node is there on the left", [18, 0, 1, 3, 0, 0, 0], 5,
     "found 0, expected the donor of node 0: a node that is there on the left, and there is none\n"),
    ("a donor before a kind that there is not", [18, 0, 3, 2, 3, 2, 4, 0, 0], 7, "found 4, expected the kind of node 2"),
    ("no donor", [18, 0, 2, 2, 3], 6, "found the end, expected the donor of node 1"),
    ("a donor before the right word", [18, 1, 0, 2, 2, 0, 0, 3, 255, 0, 9, 0, 0], 11, "found 9, expected the donor of node 1"),
    ("a donor for a preserved node", [18, 0, 2, 2, 0, 2, 0, 0, 0], 5, "found 0, expected the kind of node 1"),
    ("donors without the mark", [2, 0, 2, 2, 3, 0, 0, 0], 8, "found 0, expected the end"),
    ("one byte for a donor and the second hook", [50, 0, 3, 2, 2, 3, 1, 0, 0], 8, "found 0, expected the second hook"),
    ("an added second hook after its donor", [50, 0, 3, 2, 2, 3, 1, 2, 0, 0], 8, "found 2, expected the second hook"),
    ("node 0 as the second hook", [34, 0, 2, 2, 2, 0, 0, 0], 6, "found 0, expected the second hook: a node other than 0 that is there on the left, 1\n"),
    ("a second hook not below the count", [35, 0, 3, 2, 2, 1, 3, 0, 0], 7,
     "found 3, expected the second hook: a node other than 0 that is there on the left, 1 or 2\n"),
    ("an added second hook", [34, 0, 2, 2, 3, 1, 0, 0], 6,
     "found 1, expected the second hook: a node other than 0 that is there on the left, and there is none\n"),
    ("a second hook where there is one node", [34, 0, 1, 2, 1, 0, 0], 5, "found 1, expected the second hook"),
    ("no second hook", [34, 0, 2, 2, 2], 6, "found the end, expected the second hook"),
    ("a second hook without the mark", [2, 0, 2, 2, 2, 1, 0, 0], 9, "found the end, expected a node that is there on the left"),
    ("an added node on the left", [2, 0, 1, 3, 1, 0, 0, 0], 7, "found 0, expected a node that is there on the left"),
    ("the larger node first", [2, 0, 2, 2, 2, 1, 0, 1, 0], 9, "found 0, expected a node that is there on the left, 1 or more"),
    ("arcs not ascending", [2, 0, 1, 2, 2, 1, 0, 0, 0, 0, 0], 9, "found the left arc 0 0 0 after 1 0 0, expected ascending arcs"),
    ("cut short", [2, 0, 1, 2, 0], 6, "found the end, expected the number of right arcs"),
    ("a byte too many", [2, 0, 1, 2, 0, 0, 9], 7, "found 9, expected the end"),
]


@functools.lru_cache
def load():
    """The tool as a module: starting it anew for every text would take a minute."""
    sys.dont_write_bytecode = True
    loader = importlib.machinery.SourceFileLoader("scheme", TOOL)
    tool = importlib.util.module_from_spec(importlib.util.spec_from_loader("scheme", loader))
    loader.exec_module(tool)
    return tool


def run(*words):
    """What the tool prints and its exit status for these words."""
    out, err = io.StringIO(), io.StringIO()
    with contextlib.redirect_stdout(out), contextlib.redirect_stderr(err):
        try:
            status = load().main(list(words))
        except SystemExit as end:
            status = end.code
    return types.SimpleNamespace(returncode=status, stdout=out.getvalue(), stderr=err.getvalue())


def in_form(source):
    """Some bytes in the form."""
    n = source.choice((2, 3))
    orbit = [d for d in range(n + 1) if source.random() < 0.5]
    kinds = [source.choice((1, 2, 3)) for _ in range(source.randint(1, 16))]
    seconds = [v for v, kind in enumerate(kinds) if v > 0 and kind != 3]
    second = [source.choice(seconds)] if seconds and source.random() < 0.5 else []
    left = [v for v, kind in enumerate(kinds) if kind != 3]
    donors = source.random() < 0.5 and (left or 3 not in kinds)
    out = [n + 32 * len(second) + (16 if donors else 0), len(orbit), *orbit, len(kinds)]
    for kind in kinds:
        out.append(kind)
        for absent in (3, 1):
            word = source.sample([*range(n + 1), 255, 255, 255, 255], len(orbit))
            out += [255] * len(orbit) if kind == absent else word
        if donors and kind == 3:
            out.append(source.choice(left))
    out += second
    for absent in (3, 1):
        ends = [v for v, kind in enumerate(kinds) if kind != absent]
        arcs = {(d, *sorted(source.choices(ends, k=2))) for d in range(n + 1) for _ in range(source.randint(0, 9)) if ends}
        out.append(len(arcs))
        out += [byte for arc in sorted(arcs) for byte in arc]
    return out


class Texts(unittest.TestCase):
    def setUp(self):
        folder = tempfile.TemporaryDirectory()
        self.addCleanup(folder.cleanup)
        self.path = os.path.join(folder.name, "a.scheme")
        self.bytes = os.path.join(folder.name, "a.bytes")

    def write(self, text):
        with open(self.path, "w", encoding="utf-8", newline="") as file:
            file.write(text)

    def test_faults(self):
        for what, text, place, message in FAULTS:
            with self.subTest(what):
                self.write(text)
                done = run("assemble", self.path)
                self.assertEqual((done.returncode, done.stdout), (1, ""))
                self.assertTrue(done.stderr.startswith(f"{self.path}:{place}: "), done.stderr)
                self.assertIn(message, done.stderr)
                self.assertEqual(done.stderr.count("\n"), 1, done.stderr)

    def test_faults_of_bytes(self):
        for what, data, place, message in BYTE_FAULTS:
            with self.subTest(what):
                with open(self.bytes, "wb") as file:
                    file.write(bytes(data))
                done = run("show", self.bytes)
                self.assertEqual((done.returncode, done.stdout), (1, ""))
                self.assertTrue(done.stderr.startswith(f"{self.bytes}:byte {place}: "), done.stderr)
                self.assertIn(message, done.stderr)

    def test_bytes_to_text_and_back(self):
        source, seen = random.Random(4711), collections.Counter()
        for _ in range(200):
            data = in_form(source)
            seen[data[0] // 16] += 1
            with open(self.bytes, "wb") as file:
                file.write(bytes(data))
            shown = run("show", self.bytes)
            self.assertEqual(shown.returncode, 0, shown.stderr)
            self.write(shown.stdout)
            self.assertEqual(run("assemble", self.path).stdout.split(), [str(byte) for byte in data])
            self.assertEqual((len(re.findall("^donors", shown.stdout, re.M)), len(re.findall("^hook ", shown.stdout, re.M))),
                             (data[0] // 16 % 2, data[0] // 32))
        self.assertEqual(sorted(seen), [0, 1, 2, 3])
        self.assertGreater(min(seen.values()), 20, seen)

    def test_two_hooks(self):
        """The second hook is one byte after the nodes, and a line of its own in what is shown."""
        self.write(PAIR + "hook 1 # the second dart\nleft 2: 0-0 1-1\nright 2: 0-1\n")
        self.assertEqual(run("assemble", self.path).stdout, "34 1 0 2 2 0 0 2 0 0 1 2 2 0 0 2 1 1 1 2 0 1\n")
        self.assertEqual(run("assemble", self.path, "-o", self.bytes).returncode, 0)
        with open("schemes/sew-edges.scheme", encoding="utf-8") as file:
            self.assertEqual(run("show", self.bytes).stdout, "".join(line for line in file if not line.startswith("#")))
        self.write((PAIR + "node 2 deleted 0 ->\nhook 2\n").replace("n 2", "n 3"))
        self.assertEqual(run("assemble", self.path).stdout, "35 1 0 3 2 0 0 2 0 0 1 0 255 2 0 0\n")

    def test_donors(self):
        """A donor is one byte after its added node's words, and all of them a line of their own in what is shown."""
        for nodes, donors, data in (
                ("n 2\norbit 0\nnode 0 preserved 0 -> 0\nnode 1 added -> 0\n", "donors 1:0\n", "18 1 0 2 2 0 0 3 255 0 0 0 0"),
                (GROWN, "donors  1 : 2 3:0 # a later node, and the first\n", "18 0 4 2 3 2 1 3 0 0 0"),
                (GROWN.replace("n 2", "n 3"), "donors 1:0 3:2\nhook 2\n", "51 0 4 2 3 0 1 3 2 2 0 0"),
                (PAIR, "donors\n", "18 1 0 2 2 0 0 2 0 0 0 0"),
                (PAIR, "donors # no node is added\nhook 1\n", "50 1 0 2 2 0 0 2 0 0 1 0 0"),
                ("n 2\norbit\nnode 0 added ->\nnode 1 deleted ->\n", "donors 0:1\n", "18 0 2 3 1 1 0 0")):
            self.write(nodes + donors)
            self.assertEqual(run("assemble", self.path).stdout, data + "\n")
            self.assertEqual(run("assemble", self.path, "-o", self.bytes).returncode, 0)
            line = " ".join(donors.split("#")[0].split("\n")[0].replace(" : ", ":").split())
            self.assertIn(f"\n{line}\n", run("show", self.bytes).stdout)

    def test_donors_of_the_catalogue(self):
        """A stored scheme is as `show` prints it, with the mark where it has donors, and donors other than node 0 for some of its nodes."""
        marked = []
        for path in sorted(glob.glob("schemes/*.scheme")):
            with open(path, encoding="utf-8") as file:
                text = "".join(line for line in file if not line.startswith("#"))
            self.write(text)
            self.assertEqual(run("assemble", self.path, "-o", self.bytes).returncode, 0)
            self.assertEqual(run("show", self.bytes).stdout, text)
            donors = re.search("^donors (.*)", text, re.M)
            with open(self.bytes, "rb") as file:
                self.assertEqual(file.read(1)[0] // 16 % 2, donors is not None)
            if donors:
                marked.append(path)
                self.assertNotEqual({pair.split(":")[1] for pair in donors.group(1).split()}, {"0"})
        self.assertGreaterEqual(len(marked), 3)

    def test_the_order_of_arcs_is_free(self):
        self.write("n 2\norbit\nnode 0 preserved ->\nnode 1 preserved ->\nleft 2: 0-1\nleft 0: 1-1 0-0\nright 0: 1-1 0-0\nright 2: 0-1\n")
        self.assertEqual(run("assemble", self.path).stdout, "2 0 2 2 2 3 0 0 0 0 1 1 2 0 1 3 0 0 0 0 1 1 2 0 1\n")

    def test_sample_v_as_an_array(self):
        self.assertEqual(
            run("assemble", "schemes/split-edge.scheme", "--c").stdout,
            "static const uint8_t split_edge[20] = { 2, 2, 0, 2, 2, 2, 0, 2, 255, 2, 3, 255, 255, 1, 2, 0, 1, 0, 0, 1 };\n",
        )

    def test_check_wants_bytes(self):
        self.write(HEAD)
        done = run("check", self.path, "schemes/split-edge.scheme")
        self.assertEqual((done.returncode, done.stderr), (1, f"{self.path}:5:1: the text ends here, expected a line 'bytes ..' to hold it to\n"))

    def test_texts_from_other_editors(self):
        for text in ("\ufeff" + HEAD, HEAD.replace("\n", "\r\n"), HEAD.replace(" ", "\t"), HEAD.rstrip("\n"), HEAD + "# \u2028 n 3\n"):
            self.write(text)
            self.assertEqual(run("assemble", self.path).stdout, "2 2 0 2 2 2 0 2 255 2 3 255 255 1 2 0 0\n")

    def test_command(self):
        done = subprocess.run([TOOL, "assemble", "schemes/split-edge.scheme"], capture_output=True, text=True)
        self.assertEqual((done.returncode, done.stdout), (0, "2 2 0 2 2 2 0 2 255 2 3 255 255 1 2 0 1 0 0 1\n"))

    def test_use(self):
        self.assertEqual(run().returncode, 2)
        self.assertEqual(run("show").returncode, 2)
        self.assertEqual(run("assemble", "schemes/split-edge.scheme", "-x").returncode, 2)
        self.assertEqual(run("help").returncode, 0)
        missing = run("check", "no/such/file", "schemes/split-edge.scheme")
        self.assertEqual((missing.returncode, missing.stderr), (1, "no/such/file: No such file or directory\n"))
        with open(self.path, "wb") as file:
            file.write(b"n 2\norbit \xff\n")
        self.assertIn(":2:7: found bytes that are no text", run("check", self.path).stderr)

    def test_every_scheme_has_its_outcome(self):
        names = [{os.path.splitext(path)[0] for path in glob.glob(f"schemes/*.{kind}")} for kind in ("scheme", "outcome")]
        self.assertEqual(*names)
        self.assertGreaterEqual(len(names[0]), 12)


if __name__ == "__main__":
    os.chdir(os.path.join(os.path.dirname(os.path.abspath(__file__)), "..", ".."))
    sys.exit(unittest.main())
