#!/usr/bin/env python3
"""tools/report: the counts of the sample maps are those that are counted here in another way, by file, by folder and as CSV; refused maps
are said in words and add nothing; what cannot be sent is named before anything is counted; and a program that fails is no report."""
import csv
import glob
import io
import os
import pty
import shutil
import struct
import subprocess
import sys
import tempfile
import unittest

from common import ROOT, Case, run

from gmap import map as maps
from gmap.files import data_of
from gmap.kernel import Kernel, header_words

REPORT = os.path.join(ROOT, "tools", "report")
HEAD = ["file", "live", "vertices", "edges", "faces", "pieces", "volumes"]
E = bytes([2, 8, 0, 2, 0, 0, 0, 1, 0, 2, 0, 7, 0, 0, 0, 9, 0, 0, 0, 2, 0, 1, 0, 0, 0, 0, 0, 0, 0, 1, 0, 1, 0])  # 2 2 1 1 1 0
BROKEN = E[:21] + b"\0" + E[22:]  # dart 0 is its own 0-link, and dart 1 leads to it


def counts(m):
    """The six counts of a well-formed map, each orbit walked from its smallest dart."""
    whole = set(range(m.n + 1))
    cells = [sum(x == min(m.orbit(x, whole - {but})) for x in m.live) for but in (0, 1, 2, None, 3)]
    return [len(m.live), *cells[:4], cells[4] if m.n == 3 else 0]


def totals(rows):
    return [sum(column) for column in zip(*rows)]


class Reported(Case):
    def rows(self, *words, status=0):
        """The rows of the table and those of the CSV, which must agree, by file; a refusal is its number and words."""
        table, other = run(REPORT, *words), run(REPORT, "--csv", *words)
        self.assertEqual((table.returncode, other.returncode), (status, status), table.stderr)
        self.assertEqual(table.stderr, other.stderr)
        head, *lines = csv.reader(io.StringIO(other.stdout))
        self.assertEqual(head, [*HEAD, "refused", "why"])
        for line, (name, *cells) in zip(table.stdout.splitlines()[1:], lines):
            said = f"refused {cells[6]}: {cells[7]}" if cells[6] else " ".join(cells[:6])
            self.assertEqual(" ".join(line.split()), f"{name} {said}")
        self.assertEqual(len(table.stdout.splitlines()), len(lines) + 1)
        self.assertEqual(table.stdout.splitlines()[0].split(), HEAD)
        return [(name, (int(cells[6]), cells[7]) if cells[6] else [int(cell) for cell in cells[:6]]) for name, *cells in lines], table.stderr

    def test_sample_maps(self):
        paths = sorted(glob.glob("schemes/maps/*.map"))
        self.assertGreaterEqual(len(paths), 12)
        known = [counts(maps.map_in(data_of(path))) for path in paths]
        self.assertEqual({n for n in (maps.map_in(data_of(path)).n for path in paths)}, {2, 3})
        rows, said = self.rows(*paths)
        self.assertEqual((rows, said), ([*zip(paths, known), ("total", totals(known))], ""))

    def test_layout(self):
        done = run(REPORT, self.file("a.gmap", E), "schemes/maps/two-sheets.map", cwd=ROOT)
        width = max(len(self.path("a.gmap")), len("schemes/maps/two-sheets.map"))
        self.assertEqual(done.stdout, f"{'file':<{width}}     live vertices    edges    faces   pieces  volumes\n"
                                      f"{self.path('a.gmap'):<{width}}        2        2        1        1        1        0\n"
                                      f"{'schemes/maps/two-sheets.map':<{width}}       32        8        8        2        2        4\n"
                                      f"{'total':<{width}}       34       10        9        3        3        4\n")

    def test_folder(self):
        """A folder is its map files by name, and nothing else that is in it."""
        for name in ("b.gmap", "a.gmap", "c.gmap"):
            run("tools/map", "assemble", f"schemes/maps/{ {'a': 'bend', 'b': 'pan', 'c': 'square'}[name[0]] }.map", "-o", self.path(name))
        self.file(".d.gmap", E), self.file("e.map", "no map"), self.file("f", E)
        os.mkdir(self.path("g.gmap"))
        known = [counts(maps.map_in(data_of(self.path(name)))) for name in ("a.gmap", "b.gmap", "c.gmap")]
        paths = [self.path(name) for name in ("a.gmap", "b.gmap", "c.gmap")]
        self.assertEqual(self.rows(self.folder)[0], [*zip(paths, known), ("total", totals(known))])
        twice = [os.path.join(self.folder, "g.gmap", "..", "a.gmap"), *paths]
        self.assertEqual([name for name, _ in self.rows(twice[0], self.folder)[0]], [*twice, "total"])

    def test_forms(self):
        """A map's text and its map file come to the same, whatever they are called; a name that ends in .gmap is a map file's."""
        text = data_of("schemes/maps/pan.map")
        file = maps.map_in(text).file()
        known = counts(maps.map_in(text))
        for name, data in (("a.map", text), ("a.txt", text), ("a", file), ("a.map", file), ("a.gmap", file)):
            self.assertEqual(self.rows(self.file(name, data))[0], [(self.path(name), known), ("total", known)])
        rows, _ = self.rows(self.file("a.gmap", text), status=1)
        self.assertEqual((rows[0][1][0], rows[1][1]), (1, [0] * 6))

    def test_refused(self):
        words = {number: header_words()(number) for number in (1, 7, 11)}
        given = [("00.gmap", E, 0), ("01.gmap", b"", 11), ("02.gmap", b"\2\10", 11), ("03.gmap", b"\5\10\0", 1), ("04.gmap", b"\2\0\0", 1),
                 ("05.gmap", b"\2\1\4" + bytes(6), 1), ("06.gmap", E[:-1], 11), ("07.gmap", E + b"\0", 11), ("08.gmap", BROKEN, 7), ("09.gmap", E, 0),
                 ("10.gmap", bytes(maps.LONGEST), 1)]
        for name, data, _ in given:
            self.file(name, data)
        rows, said = self.rows(self.folder, status=1)
        self.assertEqual(rows, [*((self.path(name), (number, words[number]) if number else [2, 2, 1, 1, 1, 0]) for name, _, number in given),
                                ("total", [4, 4, 2, 2, 2, 0])])
        self.assertEqual(said, "report: 9 of 11 maps refused; tools/map check says what is wrong with one\n")
        done = run("tools/map", "check", self.path("08.gmap"), self.path("06.gmap"))
        self.assertEqual(done.returncode, 1)
        for name, number in (("08.gmap", 7), ("06.gmap", 11)):
            self.assertRegex(done.stderr, rf"{self.path(name)}.*: refused {number}: ")

    def test_words(self):
        for number in range(14):
            self.assertEqual(header_words()(number), Kernel.loaded().words(number))

    def test_input(self):
        """What is written for the program, and what it prints for it."""
        paths = [self.file("a.gmap", E), self.file("b.gmap", BROKEN), "schemes/maps/bend.map"]
        for out in (self.path("input"), "/dev/stdout"):
            done = subprocess.run([REPORT, *paths, "-o", out], stdin=subprocess.DEVNULL, capture_output=True)
            self.assertEqual((done.returncode, done.stderr), (0, b""))
            written = done.stdout if out == "/dev/stdout" else data_of(out)
            self.assertEqual(written, struct.pack("<H", 3) + b"".join(struct.pack("<H", len(file)) + file for file in (E, BROKEN,
                                                                                                                       maps.map_in(data_of(paths[2])).file())))
        with open(self.path("input"), "rb") as given:
            done = subprocess.run(["tools/program", "report_main"], stdin=given, capture_output=True, text=True)
        self.assertEqual((done.returncode, done.stdout, done.stderr), (0, "2 2 1 1 1 0\nrefused 7\n16 6 7 2 1 0\n18 8 8 3 2 0\n", ""))
        self.assertEqual(sorted(os.listdir(self.folder)), ["a.gmap", "b.gmap", "input"])

    def test_faults(self):
        """Every file that cannot be sent is named, and nothing is counted or written."""
        good, long, text = self.file("a.gmap", E), self.file("b.gmap", bytes(maps.LONGEST + 1)), self.file("c.map", "n 2\nslots 0\n")
        other, huge = self.file("d", bytes(20000)), self.path("e.gmap")
        with open(huge, "wb") as file:
            file.truncate(1 << 40)
        os.mkfifo(self.path("f.gmap"))
        os.mkdir(self.path("g"))
        os.symlink("nowhere", self.path("h.gmap"))
        most = "expected at most 14345, as the longest map file has"
        said = {long: f"{long}:byte 14346: found 14346 bytes, {most}", huge: f"{huge}:byte 14346: found {1 << 40} bytes, {most}",
                other: f"{other}:byte 14346: found 20000 bytes, {most}", text: f"{text}:2: found 'slots 0', expected 'slots' and a number from 1 to 1024",
                self.path("f.gmap"): f"{self.path('f.gmap')}: found no plain file, expected a map file",
                "no/such": "no/such: No such file or directory", self.path("h.gmap"): f"{self.path('h.gmap')}: No such file or directory"}
        for out in ((), ("--csv",), ("-o", self.path("out"))):
            done = run(REPORT, good, *said, *out)
            self.assertEqual((done.returncode, done.stdout, done.stderr.splitlines()), (1, "", list(said.values())))
            done = run(REPORT, good, self.path("g"), *out)
            self.assertEqual((done.returncode, done.stdout, done.stderr), (1, "", f"{self.path('g')}: there is no map file, *.gmap, in this folder\n"))
        done = run(REPORT, good, "-o", "no/such/input")
        self.assertEqual((done.returncode, done.stdout), (1, ""))
        self.assertIn("No such file or directory", done.stderr)
        self.assertNotIn("out", os.listdir(self.folder))

    def test_most(self):
        """As many maps as the program takes, and one more."""
        self.file("a", E)
        done = run(REPORT, *["a"] * 65535, cwd=self.folder)
        self.assertEqual((done.returncode, done.stderr, len(done.stdout.splitlines())), (0, "", 65537))
        self.assertEqual(done.stdout.splitlines()[-1].split(), ["total", *(str(65535 * count) for count in (2, 2, 1, 1, 1, 0))])
        done = run(REPORT, *["a"] * 65536, cwd=self.folder)
        self.assertEqual((done.returncode, done.stdout), (2, ""))
        self.assertIn("found 65536 files, expected at most 65535", done.stderr)

    def test_use(self):
        for words in ((), ("--csv",), ("-o", "out"), ("a", "-o"), ("a", "-o", "b", "-o", "c"), ("a", "--csv", "-o", "b"), ("a", "-x")):
            done = run(REPORT, *words)
            self.assertEqual((done.returncode, done.stdout), (2, ""), words)
            self.assertIn("tools/report FILE..", done.stderr)
        self.assertIn("-o INPUT", run(REPORT, "--help").stdout)

    def test_ends_quietly(self):
        """Where nobody reads on, nothing more is said."""
        done = run("sh", "-c", f"'{REPORT}' " + "schemes/maps/bend.map " * 4000 + "| head -n 2")
        self.assertEqual((done.stdout.split("\n")[1].split(), done.stderr), (["schemes/maps/bend.map", "16", "6", "7", "2", "1", "0"], ""))


class Programs(Case):
    """tools/report beside a program of the test's own, in a copy of the tools."""

    @classmethod
    def setUpClass(cls):
        cls.copy = tempfile.TemporaryDirectory()
        cls.addClassCleanup(cls.copy.cleanup)
        root = cls.copy.name
        for name in ("tools/gmap", "include"):
            shutil.copytree(os.path.join(ROOT, name), os.path.join(root, name))
        shutil.copy(REPORT, os.path.join(root, "tools"))
        os.makedirs(os.path.join(root, "crates", "report_main", "out"))

    def setUp(self):
        super().setUp()
        self.file("a.gmap", E)
        self.report = os.path.join(self.copy.name, "tools", "report")
        self.main = os.path.join(self.copy.name, "crates", "report_main", "out", "report_main")
        open(self.main, "w").close()

    def program(self, script):
        path = os.path.join(self.copy.name, "tools", "program")
        with open(path, "w") as file:
            file.write(f"#!/bin/sh\n{script}\n")
        os.chmod(path, 0o755)

    def test_not_there(self):
        os.remove(self.main)
        done = run(self.report, self.path("a.gmap"))
        self.assertEqual((done.returncode, done.stdout, done.stderr), (2, "", f"report: {self.main} is not there; run rt all test\n"))
        self.assertEqual(run(self.report, self.path("a.gmap"), "-o", self.path("input")).returncode, 0)

    def test_wrong_ends(self):
        """A program that prints too little or something else, and one that fails, also where much of its input is left."""
        many = ["a.gmap"] * 20000
        for script, files, said in (
                ("cat >/dev/null", many, "ended after 0 of 20000 maps"),
                ("exit 3", many, "ended after 0 of 20000 maps"),
                ("echo 2 2 1 1 1 0; exec cat >/dev/null", many, "ended after 0 of 20000 maps"),
                ("echo 2 2 1 1 1 0; echo refused 11", many, "ended after 1 of 20000 maps"),
                ("echo 2 2 1 1 1 0; echo 2 2 1 1 1 0; exit 1", many[:1], "ended after 1 of 1 maps"),
                ("echo 2 2 1 1 1 0; echo refused 11", many[:1], "ended after 1 of 1 maps"),
                ("echo 2 2 1 1 1 0; echo 2 2 1 1 1 0; echo 2 2 1 1 1 0", many[:1], r"printed b'2 2 1 1 1 0\n'"),
                ("echo 2 2 1 1 1", many, r"printed b'2 2 1 1 1\n'"),
                ("printf '2 2 1 1 1 0'", many, "printed b'2 2 1 1 1 0'"),
                ("echo refused", many, r"printed b'refused\n'")):
            with self.subTest(script):
                self.program(script)
                done = run(self.report, *files, cwd=self.folder, timeout=60)
                self.assertEqual((done.returncode, done.stderr), (2, f"report: the report program {said}\n"))
                self.assertNotIn("total", done.stdout)

    def test_a_file_that_goes(self):
        """A file that is no longer there once its turn comes is named, and there are no totals."""
        self.file("b.gmap", bytes(14000)), self.file("c.gmap", E)
        self.program(f"sleep 0.5; rm -f '{self.path('c.gmap')}'; exec head -c 28000 >/dev/null")
        done = run(self.report, *["b.gmap"] * 200, "c.gmap", cwd=self.folder, timeout=60)
        self.assertEqual((done.returncode, done.stderr), (2, "report: the report program ended after 0 of 201 maps\n"))
        self.file("c.gmap", E)
        self.program(f"sleep 0.5; rm -f '{self.path('c.gmap')}'; exec cat >/dev/null")
        done = run(self.report, *["b.gmap"] * 200, "c.gmap", cwd=self.folder, timeout=60)
        self.assertEqual((done.returncode, done.stderr), (2, "report: c.gmap: No such file or directory\n"))
        self.assertNotIn("total", done.stdout)

    def test_progress(self):
        """On a terminal it says how far a long report is, and takes that back; elsewhere, or where it is short, it says nothing."""
        slow = "cat >/dev/null; echo 2 2 1 1 1 0; sleep 1.2; echo 2 2 1 1 1 0; sleep 0.5; echo 2 2 1 1 1 0; echo 6 6 3 3 3 0"
        for script, wanted in ((slow, "\rreport: 1 of 3 maps\rreport: 2 of 3 maps\r\x1b[K"), (slow.replace("sleep", ": "), "")):
            self.program(script)
            ours, theirs = pty.openpty()
            done = subprocess.run([self.report, *["a.gmap"] * 3], cwd=self.folder, stdin=subprocess.DEVNULL, stdout=subprocess.PIPE, stderr=theirs, text=True)
            os.write(theirs, b"end")
            said = ""
            while not said.endswith("end"):
                said += os.read(ours, 4096).decode()
            os.close(ours)
            os.close(theirs)
            self.assertEqual((done.returncode, len(done.stdout.splitlines()), said), (0, 5, wanted + "end"))
        self.program(slow)
        self.assertEqual(run(self.report, *["a.gmap"] * 3, cwd=self.folder).stderr, "")


if __name__ == "__main__":
    sys.exit(unittest.main())
