#!/usr/bin/env python3
"""Maps as text: every sample map goes to a map file and back; the document's sample input; faults say where they are."""
import glob
import os
import subprocess
import sys
import tempfile
import unittest

TOOL = "tools/map"
E = "n 2\nslots 8\n0 1 0 0 7\n1 0 1 1 9\n"

# (what is wrong, the text, what is said of it)
FAULTS = [
    ("nothing", "", "1: the text ends here, expected lines 'n ..' and 'slots ..'"),
    ("n is 4", "# a map\nn 4\n", "2: found 'n 4', expected 'n 2' or 'n 3'"),
    ("no slots", "n 2\nslots 1025\n", "2: found 'slots 1025', expected 'slots' and a number from 1 to 1024"),
    ("a number too few", "n 2\nslots 8\n0 1 0 0\n", "3: found '0 1 0 0', expected 5 numbers: slot, 3 links, tag"),
    ("a slot too high", "n 2\nslots 8\n8 8 8 8 7\n", "3: found slot 8, expected one below 8 that is not listed above"),
    ("a slot twice", E + "0 0 0 0 7\n", "5: found slot 0, expected one below 8 that is not listed above"),
    ("a tag of 33 bits", "n 2\nslots 8\n0 0 0 0 4294967296\n", "3: found '0 0 0 0 4294967296', expected links of 16 bits and a tag of 32"),
]

# (what is wrong, what is done to the file of E, what is said of it)
FILE_FAULTS = [
    ("cut short", lambda b: b[:-1], "byte 33: found the end, expected a link"),
    ("a byte too many", lambda b: b + b"\0", "byte 34: found 1 bytes more, expected the end"),
    ("n is 5", lambda b: b"\5" + b[1:], "byte 1: found n = 5 and 8 slots, expected n 2 or 3 and 1 to 1024 slots"),
    ("another count", lambda b: b[:9] + b"\3" + b[10:], "byte 10: found the count 3, expected 2 as before"),
    ("slots not ascending", lambda b: b[:5] + b"\1\0\0\0" + b[9:], "byte 6: found slots [1, 0], expected them ascending and below 8"),
]


def run(*words):
    return subprocess.run([TOOL, *words], capture_output=True, text=True)


def meaning(text):
    """The words of each line without its comment."""
    lines = (line.split("#", 1)[0].split() for line in text.splitlines())
    return [words for words in lines if words]


class Maps(unittest.TestCase):
    def setUp(self):
        folder = tempfile.TemporaryDirectory()
        self.addCleanup(folder.cleanup)
        self.text, self.file, self.out = (os.path.join(folder.name, name) for name in ("a.map", "a.gmap", "out"))

    def write(self, path, content):
        with open(path, "wb") as file:
            file.write(content)

    def read(self, path):
        with open(path, "rb") as file:
            return file.read()

    def test_text_to_file_and_back(self):
        paths = glob.glob("schemes/maps/*.map")
        self.assertGreaterEqual(len(paths), 5)
        for path in paths:
            with self.subTest(path):
                self.assertEqual(run("assemble", path, "-o", self.file).returncode, 0)
                self.assertEqual(meaning(run("show", self.file).stdout), meaning(self.read(path).decode()))

    def test_broken_map_to_file_and_back(self):
        broken = self.read("examples/controller/broken.map")
        for text in (broken, E.replace("0 1 0 0 7", "0 8 65535 5 7").encode()):
            self.write(self.text, text)
            self.assertEqual(run("assemble", self.text, "-o", self.file).returncode, 0)
            self.assertEqual(meaning(run("show", self.file).stdout), meaning(text.decode()))

    def test_sample_input_of_the_bench(self):
        self.write(self.text, E.encode())
        run("assemble", self.text, "-o", self.file)
        self.assertEqual(len(self.read(self.file)), 33)
        scheme = self.text + ".bytes"
        subprocess.run(["tools/scheme", "assemble", "schemes/split-edge.scheme", "-o", scheme], check=True)
        self.assertEqual(run("bench", self.file, scheme, "0", "5", "-o", self.out).returncode, 0)
        self.assertEqual(self.read(self.out), self.read("tests/vectors/000-sample.in"))

    def test_faults(self):
        for what, text, said in FAULTS:
            with self.subTest(what):
                self.write(self.text, text.encode())
                done = run("assemble", self.text, "-o", self.out)
                self.assertEqual((done.returncode, done.stderr), (1, f"{self.text}:{said}\n"))

    def test_faults_of_files(self):
        self.write(self.text, E.encode())
        run("assemble", self.text, "-o", self.file)
        good = self.read(self.file)
        for what, damage, said in FILE_FAULTS:
            with self.subTest(what):
                self.write(self.file, damage(good))
                done = run("show", self.file)
                self.assertEqual((done.returncode, done.stderr), (1, f"{self.file}:{said}\n"))

    def test_use(self):
        self.assertEqual(run().returncode, 2)
        self.assertEqual(run("assemble", "schemes/maps/bend.map").returncode, 2)
        self.assertEqual(run("bench", "a", "b", "x", "-o", "c").returncode, 2)
        self.assertEqual(run("show", "no/such/file").stderr, "no/such/file: No such file or directory\n")


if __name__ == "__main__":
    os.chdir(os.path.join(os.path.dirname(os.path.abspath(__file__)), "..", ".."))
    sys.exit(unittest.main())
