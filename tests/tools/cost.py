#!/usr/bin/env python3
"""tools/cost: the exact tables of two commits of a small repository and of its working tree, the times that an rt of the test's own
goes through, and what is said where something is wrong. Nothing is left in the repository."""
import os
import re
import sys
import unittest

from common import ROOT, Case, run

COST = os.path.join(ROOT, "tools", "cost")
# Nothing of another repository or of a user's settings counts.
PLAIN = {name: value for name, value in os.environ.items() if not name.startswith("GIT_")}
PLAIN.update(GIT_CONFIG_GLOBAL=os.devnull, GIT_CONFIG_NOSYSTEM="1")
BEFORE = {
    "crates.txt": "# a comment: none\nmodel:\nkernel: model\nold: model\n",
    "crates/model/src/lib.rt": "// Types.\npub enum Answer { Done, Bad }\npub struct Place { pub at: u32 }\n",
    "crates/model/specs/Lib.antt": "pub mod Calls\npub mod Map\n",
    "crates/model/specs/Map.antt": "use lib.{ℕ}\n\n-- a map\npub record Map : Type 0 where\n  pub slots : ℕ\n  pub tag : ℕ → ℕ\n\n"
                                   "abbrev pub moves : ℕ → ℕ\nmoves x = x\n\nabbrev pub turns : ℕ → ℕ\nturns x = x\n",
    "crates/model/specs/Calls.antt": "abbrev pub leaves : ℕ\nleaves = 0\n\nmodule _ (n : ℕ) where\n  unfoldable pub fault : ℕ\n  fault = n\n\n"
                                     "  abbrev pub laid : ℕ → ℕ\n  laid x = f (\n    x,\n    n,\n  )\n\npub stays : ℕ\nstays = 1\n",
    "crates/model/proofs/Lib.antt": "pub mod Laws\n",
    "crates/kernel/src/lib.rt": "pub fn same(a: u32) -> u32\n    ensures { λ r. ⌜ r ≡ a ⌝ }\n{\n    a\n}\n\npub fn other(a: u32) -> u32\n"
                                "    ensures { λ r. ⌜ r ≡ a ⌝ }\n{\n    a\n}\n\nfn inner(a: u32) {}\n\npub fn leaves() ensures { ⌜ Unit ⌝ } {}\n",
    "crates/kernel/src/place.rt": 'impl Place {\n    pub extern "C" fn step(self) -> Place requires { ⌜ A ⌝ } ensures { ⌜ B ⌝ } { self }\n}\n',
    "crates/kernel/specs/Laid.antt": "pub data Side : Type 0 where\n  left : Side\n",
    "crates/kernel/proofs/same/Proof.antt": "a\nb\n",
    "crates/kernel/must-fail/one.edit": "file: src/lib.rt\n",
    "crates/old/src/lib.rt": "pub fn carried(a: [u8; 4]) -> [u8; 4] ensures { ⌜ C ⌝ } { a }\n",
}
NOW = {
    **BEFORE,
    "crates.txt": "model:\nkernel: model\nfresh staticlib: model\n",
    "crates/model/src/lib.rt": "pub enum Answer {\n    Done,\n    Bad,\n    Worse,\n}\npub struct Place {\n    pub at: u32, // where\n}\n",
    "crates/model/specs/Map.antt": "use lib.{ℕ}\nuse more.{x}\n\npub record Map : Type 0 where\n  pub slots : ℕ\n  -- its lot\n  pub tag : ℕ\n    → ℕ\n",
    "crates/model/specs/Calls.antt": "abbrev pub moves : ℕ → ℕ\nmoves x = x\n\nabbrev pub turns : ℕ → ℕ\nturns x = suc x\n\nmodule _ (m : ℕ) where\n"
                                     "  unfoldable pub fault : ℕ\n  fault = n\n\nmodule _ (n : ℕ) where\n  abbrev pub laid : ℕ → ℕ\n  laid x = f (x, n)\n\n"
                                     "pub stays : ℕ\nstays = 1\n\npub data Side : Type 0 where\n  left : Side\n\npub comes : ℕ\ncomes = 2\n",
    "crates/kernel/src/lib.rt": "pub fn same(\n    a: u32, // a number\n) -> u32\n    ensures {\n        λ r. ⌜ r ≡ a ⌝\n    }\n{\n    a + 0\n}\n\n"
                                "pub fn other(a: u64) -> u32\n    requires { ⌜ a < 5 ⌝ }\n    ensures { λ r. ⌜ r ≡ a ⌝ }\n{\n    a\n}\n\n"
                                "pub(crate) fn inner(a: u32) {}\n",
    "crates/kernel/src/place.rt": 'impl Place {\n    pub extern "C" fn step(self) -> Place requires { ⌜ A ⌝ } ensures { ⌜ D ⌝ } { self }\n}\n',
    "crates/kernel/must-fail/two.edit": "file: src/lib.rt\n",
    "crates/fresh/src/lib.rt": "pub fn carried(a: [u8; 4]) -> [u8; 4] ensures { ⌜ C ⌝ } { a }",
}
for gone in ("crates/old/src/lib.rt", "crates/kernel/specs/Laid.antt"):
    del NOW[gone]

LINES = """\
## Lines
A cell with one number is the same before and now.

| crate | code | specification | proof | must-fail edits |
|---|---|---|---|---|
| model | 3 → 8 | 29 → 32 | 1 | 0 |
| kernel | 18 → 21 | 2 → 0 | 2 | 1 → 2 |
| fresh (new) | – → 1 | – → 0 | – → 0 | – → 0 |
| old (gone) | 1 → – | 0 → – | 0 → – | 0 → – |
| all | 22 → 30 | 31 → 32 | 3 | 1 → 2 |
"""
CHANGES = """
## Public promises
5 before, 4 now; unchanged: 1.

| crate | change | functions |
|---|---|---|
| kernel | changed | `other` (parameters, requires), `place::Place::step` (ensures) |
| kernel | gone | `leaves` |
| fresh | moved from `old` | `carried` |

## Definitions of model and demands
9 before, 10 now; unchanged: 4.

| crate | file | change | definitions |
|---|---|---|---|
| model | specs/Calls.antt | changed | `fault` |
| model | specs/Calls.antt | gone | `leaves` |
| model | specs/Calls.antt | moved from `kernel/specs/Laid.antt` | `Side` |
| model | specs/Calls.antt | moved from `model/specs/Map.antt` | `moves` |
| model | specs/Calls.antt | moved from `model/specs/Map.antt`, changed | `turns` |
| model | specs/Calls.antt | new | `comes` |
| model | src/lib.rt | changed | `Answer` |
"""
TIMES = """
## Time of the check
Each crate from nothing, one after the other, both sides on this machine in one run.

| crate | before | now |
|---|---|---|
| model | N s | N s |
| kernel | N s | N s |
| fresh | – | N s |
| old | N s | – |
| all | N s | N s |
"""
# An rt that proves every crate that crates.txt has, save those that REFUSED names.
RT = """#!/bin/sh
[ "$*" = 'all verdict --jobs 1' ] && [ ! -e out ] && mkdir out || exit 2
status=0 names=$(sed -n 's/^\\([a-z]*\\)[^:]*:.*/\\1/p' crates.txt)
for name in $names; do echo "== $name"; done
echo '== summary'
for name in $names; do
    case " $REFUSED " in *" $name "*) echo "$name: failed (1)"; status=1 ;; *) echo "$name: ok" ;; esac
done
exit $status
"""


class Cost(Case):
    def setUp(self):
        super().setUp()
        self.repository = self.path("repository")
        os.mkdir(self.repository)
        self.git("init", "-q")
        self.commit(BEFORE, "The first")
        self.commit(NOW, "The second")

    def git(self, *words):
        done = run("git", "-c", "user.name=a", "-c", "user.email=a", *words, cwd=self.repository, env=PLAIN)
        self.assertEqual(done.returncode, 0, done.stderr)
        return done.stdout.strip()

    def lay(self, files):
        for path in self.git("ls-files").split():
            os.remove(os.path.join(self.repository, path))
        for path, text in files.items():
            path = os.path.join(self.repository, path)
            os.makedirs(os.path.dirname(path), exist_ok=True)
            with open(path, "w", encoding="utf-8") as file:
                file.write(text)

    def commit(self, files, subject):
        self.lay(files)
        self.git("add", "-A")
        self.git("commit", "-q", "-m", subject)

    def cost(self, *words, where=None, **more):
        done = run(COST, *words, cwd=where or self.repository, env={**PLAIN, "TMPDIR": self.folder, **more})
        self.assertEqual([name for name in os.listdir(self.folder) if name.startswith("cost-")], [])
        return done

    def rt(self):
        folder = self.path("bin")
        os.mkdir(folder)
        os.chmod(self.file("bin/rt", RT), 0o755)
        return folder + ":" + os.environ["PATH"]

    def head(self, now):
        return f"Before is `{self.git('rev-parse', '--short', 'HEAD~')}` (The first), now is {now}.\n\n"

    def test_commits(self):
        done = self.cost("HEAD~", "HEAD")
        self.assertEqual((done.returncode, done.stderr), (0, ""))
        self.assertEqual(done.stdout, self.head(f"`{self.git('rev-parse', '--short', 'HEAD')}` (The second)") + LINES + CHANGES)
        self.assertEqual(self.git("status", "--porcelain", "--ignored"), "")

    def test_working_tree(self):
        done = self.cost("HEAD~", where=os.path.join(self.repository, "crates"))
        now = f"the working tree at `{self.git('rev-parse', '--short', 'HEAD')}`"
        self.assertEqual((done.returncode, done.stdout, done.stderr), (0, self.head(now) + LINES + CHANGES, ""))
        self.git("reset", "-q", "--hard", "HEAD~")
        self.lay(NOW)
        first = self.git("rev-parse", "--short", "HEAD")
        done = self.cost("HEAD")
        self.assertEqual(done.stdout, f"Before is `{first}` (The first), now is the working tree at `{first}`, with changes that are not committed.\n\n"
                         + LINES + CHANGES)

    def test_nothing_changed(self):
        done = self.cost("HEAD", "HEAD")
        self.assertEqual(done.returncode, 0)
        self.assertNotIn("→", done.stdout)
        self.assertEqual(done.stdout.split("\n\n## ", 2)[2], "Public promises\n4 before, 4 now; unchanged: 4.\n\n"
                         "## Definitions of model and demands\n10 before, 10 now; unchanged: 10.\n")

    def test_times(self):
        path = self.rt()
        done = self.cost("--check", "HEAD~", PATH=path)
        self.assertEqual(done.returncode, 0, done.stderr)
        self.assertTrue(re.sub(r"\b[0-9]+ s\b", "N s", done.stdout).endswith(CHANGES + TIMES), done.stdout)
        self.assertEqual(self.git("status", "--porcelain", "--ignored"), "")
        done = self.cost("HEAD~", "--check", PATH=path, REFUSED="kernel")
        self.assertEqual(done.returncode, 1)
        self.assertIn("\n| kernel | not proved | not proved |\n", done.stdout)
        self.assertTrue(done.stdout.endswith("\n| all | not proved | not proved |\n"))
        self.assertIn("cost: before: kernel is not proved\ncost: before: rt all verdict ends with exit status 1", done.stderr)
        self.assertIn("in the spelling of an older Rattle", done.stderr)

    def test_faults(self):
        for words, more, said in (
                (("no-such-commit",), {}, "there is no commit no-such-commit"),
                (("HEAD", "no-such-commit"), {}, "there is no commit no-such-commit"),
                (("HEAD:crates",), {}, "there is no commit HEAD:crates"),
                (("HEAD",), {"where": self.folder}, "found no repository here: .+"),
                (("HEAD",), {"where": os.path.join(self.repository, ".git")}, "found no repository here: .+"),
                (("--check", "HEAD"), {"PATH": self.tools()}, "rt is not found")):
            with self.subTest(words):
                done = self.cost(*words, **more)
                self.assertEqual((done.returncode, done.stdout), (1, ""))
                self.assertRegex(done.stderr, f"^cost: {said}\n$")

    def tools(self):
        """A folder with what the command needs but rt."""
        folder = self.path("tools")
        os.mkdir(folder)
        for name in ("git", "python3"):
            place = next(os.path.join(path, name) for path in os.environ["PATH"].split(":") if os.access(os.path.join(path, name), os.X_OK))
            os.symlink(place, os.path.join(folder, name))
        return folder

    def test_no_crates(self):
        self.commit({"crates.txt": ""}, "Nothing")
        done = self.cost("HEAD", "HEAD~")
        self.assertEqual((done.returncode, done.stdout), (1, ""))
        self.assertRegex(done.stderr, r"^cost: there is no crate in `[0-9a-f]+` \(Nothing\)\n$")

    def test_wrong_use(self):
        for words in ((), ("--check",), ("a", "b", "c"), ("--no-such", "HEAD"), ("-x",), ("",)):
            with self.subTest(words):
                done = self.cost(*words)
                self.assertEqual((done.returncode, done.stdout), (2, ""))
                self.assertIn("tools/cost [--check] BASE [NOW]", done.stderr)


if __name__ == "__main__":
    sys.exit(unittest.main())
