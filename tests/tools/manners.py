#!/usr/bin/env python3
"""Manners of the commands: help is printed and does nothing else, wrong words get the usage and exit status 2, the bench program's
command says on a terminal that it waits, and a file is written whole or not at all."""
import os
import pty
import subprocess
import sys
import unittest

from common import Case, run

from gmap import files

COMMANDS = ["tools/archive", "tools/bench", "tools/program", "tools/scheme", "tools/map", "tools/apply", "tools/report", "tools/promises",
            "tools/cost", "tools/try-edit", "tests/run", "tests/reports/beside", "perf/run", "perf/report", "perf/maps"]


class Manners(Case):
    def test_help(self):
        for command in COMMANDS:
            for word in ("--help", "-h"):
                with self.subTest(f"{command} {word}"):
                    done = run(command, word)
                    self.assertEqual((done.returncode, done.stderr), (0, ""))
                    self.assertIn(os.path.basename(command), done.stdout)
                    self.assertGreater(len(done.stdout.splitlines()), 1)

    def test_wrong_words(self):
        for command in COMMANDS:
            with self.subTest(command):
                done = run(command, "--no-such-option", "and", "more")
                self.assertEqual(done.returncode, 2)
                self.assertIn(os.path.basename(command), done.stdout + done.stderr)

    def test_bench_waits(self):
        """On a terminal it says so; with a file it says nothing of it."""
        ours, theirs = pty.openpty()
        with subprocess.Popen(["tools/bench"], stdin=theirs, stdout=subprocess.PIPE, stderr=subprocess.PIPE, text=True) as bench:
            said = bench.stderr.readline()
            os.write(ours, b"\4")  # the end of input
            out, rest = bench.communicate(timeout=60)
        os.close(ours)
        os.close(theirs)
        self.assertEqual((said, out, rest), ("bench: waiting for its input, which tools/map bench writes: tools/bench <INPUT\n", "refused 11\n", ""))
        with open("tests/vectors/000-sample.in", "rb") as sample:
            done = subprocess.run(["tools/bench"], stdin=sample, capture_output=True, text=True)
        self.assertEqual((done.stdout, done.stderr), ("0 0 2 2 0\n5 8 0 0 0\nlive 4 unused 4\n", ""))

    def test_written_whole(self):
        path = self.file("old", "old")
        os.chmod(path, 0o640)
        files.write_whole(path, b"new")
        self.assertEqual((files.data_of(path), os.stat(path).st_mode & 0o777), (b"new", 0o640))
        link = self.path("link")
        os.symlink("old", link)
        files.write_whole(link, b"newer")
        self.assertEqual((files.data_of(path), os.path.islink(link)), (b"newer", True))
        self.assertRaises(OSError, files.write_whole, self.path("no/such"), b"new")
        self.assertRaises(OSError, files.write_whole, self.folder, b"new")
        files.write_whole("/dev/null", b"new")
        done = run("tools/apply", "schemes/maps/bend.map", "split-edge", "2", "-o", "/dev/stdout", "--text")
        self.assertEqual((done.stdout.split("\n")[:2], done.stderr), (["n 2", "slots 24"], ""))
        self.assertEqual(sorted(os.listdir(self.folder)), ["link", "old"])


if __name__ == "__main__":
    sys.exit(unittest.main())
