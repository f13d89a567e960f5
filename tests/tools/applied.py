#!/usr/bin/env python3
"""tools/apply: every operation of the catalogue gives the map of its stored outcome, every stored refusal is said in words, the map is
written in the form that was asked for, and nothing is written where something is wrong."""
import glob
import os
import sys
import unittest

from common import Case, run

from gmap import map as maps
from gmap.edit import Edit
from gmap.files import data_of
from gmap.kernel import Kernel
from gmap.scheme import bytes_in, scheme_in


def outcome(path):
    """The map, the darts, the first line and the live records that a stored outcome has."""
    with open(path) as file:
        lines = [line.rstrip("\n") for line in file if not line.startswith("#")]
    records = [line.split() for line in lines[lines.index(next(line for line in lines if line.startswith("slot"))) + 1:]]
    return lines[0].split()[1], lines[1].split()[1:], lines[2], records


def refusals():
    """The scheme, the map, the darts and the number of each stored refusal."""
    with open("schemes/refusals.txt") as file:
        rows = [line.split(None, 4)[:4] for line in file if line.strip() and not line.startswith("#")]
    return [(name, on, darts.split(","), number) for name, on, darts, number in rows]


class Applied(Case):
    def test_catalogue(self):
        paths = sorted(glob.glob("schemes/*.outcome"))
        self.assertGreaterEqual(len(paths), 12)
        for path in paths:
            with self.subTest(path):
                name, out = os.path.basename(path)[:-len(".outcome")], self.path("out.map")
                on, darts, said, records = outcome(path)
                done = run("tools/apply", f"schemes/maps/{on}.map", name, *darts, "-o", out)
                self.assertEqual((done.returncode, done.stderr), (0, ""))
                self.assertEqual(done.stdout.split(";")[0], said)
                text = data_of(out).decode()
                self.assertEqual([line.split() for line in text.splitlines()[3:]], records)
                m = maps.map_of_text(text)
                self.assertEqual(done.stdout.split("; ")[1], f"live {len(records)}, unused {m.slots - len(records)}\n")

    def test_refusals(self):
        self.assertGreaterEqual(len(refusals()), 10)
        self.assertEqual({len(darts) for _, _, darts, _ in refusals()}, {1, 2})
        for name, on, darts, number in refusals():
            with self.subTest(f"{name} on {on} at {darts}"):
                done = run("tools/apply", f"schemes/maps/{on}.map", name, *darts, "-o", self.path("out.map"))
                self.assertEqual((done.returncode, done.stdout), (1, ""))
                at = f"dart {darts[0]}" if len(darts) == 1 else f"darts {darts[0]} and {darts[1]}"
                self.assertRegex(done.stderr, f"^schemes/maps/{on}.map: {name} at {at}: refused {number}: [a-z][^\n]+\n$")
        self.assertEqual(os.listdir(self.folder), [])

    def test_refusals_in_words(self):
        for words, said in (
                (("bend", "split-edge", "23"), "bend.map: split-edge at dart 23: refused 8: there is no such dart: slot 23 is unused"),
                (("bend", "split-edge", "24"), "bend.map: split-edge at dart 24: refused 8: there is no such dart: there are 24 slots"),
                (("bend", "spoke-face", "0"), "bend.map: spoke-face at dart 0: refused 10: the table has too little room: "
                 "16 new darts, 2 for each of the orbit's 8, and 8 unused slots"),
                (("square", "extrude-face", "0"), "square.map: extrude-face at dart 0: refused 6: the scheme is for maps of another dimension: "
                 "the scheme is for n = 3, the map has n = 2"),
                (("square", "merge-faces", "0"), "square.map: merge-faces at dart 0: refused 9: the scheme does not fit here"),
                (("pan", "sew-edges", "11"), "pan.map: sew-edges at dart 11: refused 2: the scheme is for another number of darts: "
                 "it has two hooks, nodes 0 and 1, and one dart was given"),
                (("pan", "split-edge", "11", "16"), "pan.map: split-edge at darts 11 and 16: refused 2: the scheme is for another number of darts: "
                 "it has one hook, node 0, and two darts were given"),
                (("pan", "sew-faces", "11"), "pan.map: sew-faces at dart 11: refused 2: the scheme is for another number of darts: "
                 "it has two hooks, nodes 0 and 1, and one dart was given"),
                (("pan", "sew-faces", "63", "16"), "pan.map: sew-faces at darts 63 and 16: refused 6: the scheme is for maps of another dimension: "
                 "the scheme is for n = 3, the map has n = 2"),
                (("pan", "sew-edges", "40", "16"), "pan.map: sew-edges at darts 40 and 16: refused 8: there is no such dart: slot 40 is unused"),
                (("pan", "sew-edges", "11", "40"), "pan.map: sew-edges at darts 11 and 40: refused 8: there is no such dart: slot 40 is unused"),
                (("pan", "sew-edges", "63", "64"),
                 "pan.map: sew-edges at darts 63 and 64: refused 8: there is no such dart: slot 63 is unused; there are 64 slots"),
                (("pan", "sew-edges", "64", "65"), "pan.map: sew-edges at darts 64 and 65: refused 8: there is no such dart: there are 64 slots"),
                (("pan", "sew-edges", "11", "11"), "pan.map: sew-edges at darts 11 and 11: refused 9: the scheme does not fit here: "
                 "dart 11 was given for both hooks, and each node has a dart of its own"),
                (("pan", "sew-edges", "11", "10"), "pan.map: sew-edges at darts 11 and 10: refused 9: the scheme does not fit here: "
                 "both darts are of one orbit, 10 and 11, and each node has darts of its own"),
                (("pan", "sew-edges", "11", "22"), "pan.map: sew-edges at darts 11 and 22: refused 9: the scheme does not fit here"),
                (("square-and-triangle", "sew-faces", "0", "8"), "square-and-triangle.map: sew-faces at darts 0 and 8: refused 9: "
                 "the scheme does not fit here: the orbit of dart 0 has 8 darts, that of dart 8 has 6, and they must be of one shape"),
                (("bend-split", "join-flanges-by-strip", "0", "9"), "bend-split.map: join-flanges-by-strip at darts 0 and 9: refused 10: "
                 "the table has too little room: 8 new darts, 4 for each of the orbit's 2, and 4 unused slots"),
                (("bend-full", "spoke-face", "0"), "bend-full.map: spoke-face at dart 0: refused 10: "
                 "the table has too little room: 16 new darts, 2 for each of the orbit's 8, and no unused slot"),
                (("gusset-tight", "square-flange", "2"), "gusset-tight.map: square-flange at dart 2: refused 10: the table has too little room: "
                 "8 new darts, 4 for each of the orbit's 2, and room for 7: 1 unused slot and the 6 that the edit frees")):
            done = run("tools/apply", f"schemes/maps/{words[0]}.map", *words[1:])
            self.assertEqual((done.returncode, done.stderr), (1, f"schemes/maps/{said}\n"))

    def test_room_in_words(self):
        """A 10 says how many darts are new and how many slots there are for them, unused ones and those that the edit frees; with as many slots
        as there are new darts the edit is done."""
        piece, lone = (maps.map_in(data_of(f"schemes/maps/{name}.map")) for name in ("square", "lone"))
        twice = self.file("twice.scheme", "n 2\norbit 0 1 2\nnode 0 deleted 0 1 2 ->\nnode 1 added -> 0 1 2\nnode 2 added -> 0 1 2\n")
        beside = self.file("beside.scheme", "n 2\norbit 0\nnode 0 preserved 0 -> 0\nnode 1 added -> 0\nright 1: 1-1\nright 2: 1-1\n")
        for m, scheme, slots, said in (
                (piece, twice, 8, "16 new darts, 2 for each of the orbit's 8, and room for 8: no unused slot and the 8 that the edit frees"),
                (piece, twice, 9, "16 new darts, 2 for each of the orbit's 8, and room for 9: 1 unused slot and the 8 that the edit frees"),
                (piece, twice, 15, "16 new darts, 2 for each of the orbit's 8, and room for 15: 7 unused slots and the 8 that the edit frees"),
                (piece, twice, 16, None),
                (piece, beside, 8, "2 new darts, 1 for each of the orbit's 2, and no unused slot"),
                (piece, beside, 9, "2 new darts, 1 for each of the orbit's 2, and 1 unused slot"),
                (piece, beside, 10, None),
                (lone, twice, 1, "2 new darts for the orbit's one dart, and room for 1: no unused slot and the 1 that the edit frees"),
                (lone, twice, 2, None),
                (lone, beside, 1, "1 new dart for the orbit's one dart, and no unused slot"),
                (lone, beside, 2, None)):
            m.slots = slots
            path = self.file("a.map", m.text())
            done = run("tools/apply", path, scheme, "0")
            wanted = f"{path}: {scheme} at dart 0: refused 10: the table has too little room: {said}\n" if said else ""
            self.assertEqual((done.returncode, done.stderr), (1 if said else 0, wanted))

    def test_forms(self):
        """Text and bytes of both arguments and of what is written come to the same."""
        file, scheme = self.path("bend.gmap"), self.path("split.bytes")
        run("tools/map", "assemble", "schemes/maps/bend.map", "-o", file)
        run("tools/scheme", "assemble", "schemes/split-edge.scheme", "-o", scheme)
        written = []
        for on in ("schemes/maps/bend.map", file):
            for operation in ("split-edge", "schemes/split-edge.scheme", scheme):
                for out, form in (("a.map", ()), ("a.gmap", ()), ("a", ("--text",)), ("b.map", ("--bytes",))):
                    done = run("tools/apply", *form, on, operation, "2", "-o", self.path(out))
                    self.assertEqual((done.returncode, done.stderr), (0, ""))
                    data = data_of(self.path(out))
                    self.assertEqual(data[:4] == b"n 2\n", out == "a.map" or form == ("--text",))
                    written.append(maps.map_in(data).file())
        self.assertEqual(set(written), {written[0]})
        self.assertNotEqual(written[0], data_of(file))

    def test_forms_at_two_darts(self):
        scheme, written = self.path("sew.bytes"), set()
        run("tools/scheme", "assemble", "schemes/sew-edges.scheme", "-o", scheme)
        for operation in ("sew-edges", "schemes/sew-edges.scheme", scheme):
            done = run("tools/apply", "schemes/maps/two-pieces.map", operation, "2", "15", "-o", self.path("a.gmap"))
            self.assertEqual((done.returncode, done.stdout, done.stderr), (0, "done: orbit 2, added 0, deleted 0; live 16, unused 8\n", ""))
            written.add(data_of(self.path("a.gmap")))
        self.assertEqual(written, {maps.map_in(data_of("schemes/maps/bend.map")).file()})

    def test_the_darts_have_their_order(self):
        """The first dart is that of node 0, which gives the strip's first slots; and sewn at the other end, an edge is sewn the other way round."""
        for darts, lots in ((("2", "15"), [4711, 4711, 4712, 4712] * 2), (("15", "2"), [4712, 4712, 4711, 4711] * 2)):
            run("tools/apply", "schemes/maps/two-pieces.map", "join-flanges-by-strip", *darts, "-o", self.path("a.map"))
            after = maps.map_in(data_of(self.path("a.map")))
            self.assertEqual([after.live[x][1] for x in range(16, 24)], lots)
        for other, met in (("15", {2: 15, 3: 14}), ("14", {2: 14, 3: 15})):
            run("tools/apply", "schemes/maps/two-pieces.map", "sew-edges", "2", other, "-o", self.path("a.map"))
            after = maps.map_in(data_of(self.path("a.map")))
            self.assertEqual({x: after.live[x][0][2] for x in met}, met)

    def after(self, m, scheme, *darts):
        """The map that the kernel makes of a map by a scheme's text."""
        kernel = Kernel.loaded()
        _, table = kernel.load(m.n, m.slots, m.file())
        self.assertEqual(kernel.edit(m.n, m.slots, table, bytes_in(scheme), *darts).number, 0)
        return maps.map_of_file(kernel.write(m.n, m.slots, table))

    def stored(self, on, name, *darts):
        """The sample map, and what an operation of the catalogue makes of it."""
        m = maps.map_in(data_of(f"schemes/maps/{on}.map"))
        return m, self.after(m, data_of(f"schemes/{name}.scheme"), *darts)

    def test_lots_follow_the_metal(self):
        """Each new dart has the lot of the metal that it grows on, whichever darts are pointed at: of the dart that it is sewn to, or of the one
        beside it in its own face."""
        for darts in ((2, 15), (3, 14), (15, 2), (14, 3), (2, 14)):
            _, after = self.stored("two-pieces", "join-flanges-by-strip", *darts)
            sewn = {x: after.live[x][0][2] for x in range(16, 24) if after.live[x][0][2] != x}
            self.assertEqual(sorted(sewn.values()), [2, 3, 14, 15])
            for x, flange in sewn.items():
                beside = after.live[x][0][1]
                self.assertEqual([after.live[y][1] for y in (x, beside)], [after.live[flange][1]] * 2)
        for dart in (2, 3, 14, 15):
            _, after = self.stored("bend", "bend-strip", dart)
            self.assertEqual([after.live[x][1] for x in range(16, 20)], [after.live[after.live[x][0][2]][1] for x in range(16, 20)])
        for dart in range(8):
            _, after = self.stored("two-lots", "slit-corner", dart)
            self.assertEqual([after.live[x][1] for x in (8, 9)], [after.live[after.live[x][0][1]][1] for x in (8, 9)])
            self.assertEqual([after.live[x][1] for x in (10, 11)], [after.live[after.live[x][0][0]][1] for x in (10, 11)])
            _, after = self.stored("two-lots", "divide-face", dart)
            self.assertEqual([after.live[x][1] for x in range(8, 12)], [after.live[after.live[x][0][1]][1] for x in range(8, 12)])

    def test_a_donor_that_goes(self):
        """What is trimmed or squared off has the lots of the darts that are deleted in the same edit, dart by dart, though their slots are taken by
        others of its darts, and not those of the sheet that stays."""
        for on, name, lots in (("bend", "trim-flange", [115, 108, 109, 114, 113, 112]),
                               ("gusset", "square-flange", [108, 109, 110, 110, 111, 112, 113, 113])):
            m = maps.map_in(data_of(f"schemes/maps/{on}.map"))
            m.live = {x: (links, 100 + x) for x, (links, _) in m.live.items()}
            after = self.after(m, data_of(f"schemes/{name}.scheme"), 2)
            self.assertEqual({x: tag for x, (_, tag) in after.live.items()}, dict(enumerate([*range(100, 108), *lots])))

    def test_trimmed_and_squared(self):
        """bend-full is gusset once trimmed; squared off again it is as it was but for slots, and trimmed again it is gusset, slots and all."""
        full, trimmed = self.stored("bend-full", "trim-flange", 2)
        gusset, squared = self.stored("gusset", "square-flange", 2)
        self.assertEqual(trimmed.file(), gusset.file())
        self.assertEqual(self.after(squared, data_of("schemes/trim-flange.scheme"), 2).file(), gusset.file())
        to = [*range(8), 9, 10, 11, 15, 14, 13, 12, 8]
        self.assertEqual({to[x]: ([to[y] for y in links], tag) for x, (links, tag) in full.live.items()}, squared.live)
        tight = maps.map_in(data_of("schemes/maps/gusset-tight.map"))  # the same part in a table with a slot less
        self.assertEqual((tight.live, tight.slots), (gusset.live, gusset.slots - 1))

    def test_without_the_mark(self):
        """The same scheme without its donors line gives the same map but for tags: every new dart has that of its orbit dart, every other its own."""
        for name, on, darts in (("join-flanges-by-strip", "two-pieces", (2, 15)), ("bend-strip", "bend", (2,)), ("slit-corner", "two-lots", (1,)),
                                ("divide-face", "two-lots", (6,)), ("trim-flange", "bend", (2,)), ("trim-flange", "bend-full", (2,)),
                                ("square-flange", "gusset", (2,))):
            before, marked = self.stored(on, name, *darts)
            text = data_of(f"schemes/{name}.scheme").splitlines(True)
            scheme = b"".join(line for line in text if not line.startswith((b"donors", b"bytes")))
            unmarked, edit = self.after(before, scheme, *darts), Edit(before, scheme_in(scheme), darts)
            self.assertEqual({x: links for x, (links, _) in marked.live.items()}, {x: links for x, (links, _) in unmarked.live.items()})
            self.assertGreater(len(edit.new), 0)
            tags = {x: tag for x, (_, tag) in before.live.items() if x not in edit.deleted}
            tags.update({x: before.live[u][1] for x, (u, _) in edit.new.items()})
            self.assertEqual({x: tag for x, (_, tag) in unmarked.live.items()}, tags)
            self.assertNotEqual(marked.file(), unmarked.file())

    def test_both_sides(self):
        """Edges in space are sewn on both sides of their faces, or on the one that there is, and not where one face has two and the other one."""
        done = run("tools/apply", "schemes/maps/two-plates.map", "sew-edges-in-space", "2", "15")
        self.assertEqual((done.returncode, done.stdout), (0, "done: orbit 2, added 0, deleted 0; live 16, unused 48\n"))
        m = maps.map_in(data_of("schemes/maps/two-sheets.map"))
        m.live = {x: (links[:3] + [x if x >= 16 else links[3]], tag) for x, (links, tag) in m.live.items() if x < 24}
        for darts, sizes in ((("2", "23"), (2, 4, 23, 2)), (("23", "2"), (23, 2, 2, 4))):
            done = run("tools/apply", self.file("a.map", m.text()), "sew-edges-in-space", *darts)
            said = ("refused 9: the scheme does not fit here: the orbit of dart {} has {} darts, that of dart {} has {}, "
                    "and they must be of one shape\n").format(*sizes)
            self.assertEqual((done.returncode, done.stderr), (1, f"{self.path('a.map')}: sew-edges-in-space at darts {darts[0]} and {darts[1]}: {said}"))

    def test_undone(self):
        """part-faces at the first dart undoes the sewing."""
        before = maps.map_in(data_of("schemes/maps/pan.map"))
        run("tools/apply", "schemes/maps/pan.map", "sew-edges", "11", "16", "-o", self.path("a.map"))
        self.assertEqual(run("tools/apply", self.path("a.map"), "part-faces", "11", "-o", self.path("b.map")).returncode, 0)
        self.assertEqual(maps.map_in(data_of(self.path("b.map"))).file(), before.file())

    def test_without_out(self):
        done = run("tools/apply", "schemes/maps/bend.map", "split-edge", "2")
        self.assertEqual((done.returncode, done.stdout, done.stderr), (0, "done: orbit 4, added 4, deleted 0; live 20, unused 4\n", ""))

    def test_faults(self):
        bad_map, bad_scheme, refused = self.file("a.map", "n 2\nslots 8\n0 0 3 0 7\n"), self.file("a.scheme", "n 2\norbit 3\n"), self.file(
            "b.scheme", "n 2\norbit 0\nnode 0 preserved 0 -> _\n")
        hooked = self.file("c.scheme", "n 2\norbit 0\nnode 0 preserved 0 -> 0\nnode 1 preserved _ -> _\nhook 1\n")
        bend = "schemes/maps/bend.map"
        for words, said in (((bad_map, "split-edge", "0"),
                             f"{bad_map}: refused 7: the map is not well-formed\n{bad_map}:3: slot 0: α1 leads to 3, which is unused\n"),
                            ((bend, bad_scheme, "0"), f"{bad_scheme}:2:7: found '3', expected a dimension 0, 1 or 2\n"),
                            ((bend, refused, "0"), f"{refused}:3: node 0: refused 4: it is preserved, has 0 on the left side and lacks it on the right\n"),
                            ((bend, hooked, "0", "1"),
                             f"{hooked}:4: node 1: refused 3: the left word of the second hook is '_', and must be the orbit type, '0'\n"),
                            ((bend, hooked, "0"), f"{bend}: {hooked} at dart 0: refused 2: the scheme is for another number of darts: "
                             "it has two hooks, nodes 0 and 1, and one dart was given\n"),
                            ((bend, "no-such", "0"), "no-such: no such file, and no operation of the catalogue has this name\n"),
                            ((bend, "no/such", "0"), "no/such: No such file or directory\n"),
                            (("no/such", "split-edge", "0"), "no/such: No such file or directory\n"),
                            ((bend, "split-edge", "2", "-o", "no/such/a.map"), "No such file or directory\n")):
            out = () if "-o" in words else ("-o", self.path("out.map"))
            done = run("tools/apply", *words, *out)
            self.assertEqual((done.returncode, done.stdout), (1, ""))
            self.assertIn(said, done.stderr)
        self.assertEqual(sorted(os.listdir(self.folder)), ["a.map", "a.scheme", "b.scheme", "c.scheme"])

    def test_use(self):
        bend = "schemes/maps/bend.map"
        for words in ((), (bend,), (bend, "split-edge"), (bend, "split-edge", "x"), (bend, "split-edge", "4294967296"), (bend, "sew-edges", "2", "x"),
                      (bend, "sew-edges", "2", "4294967296"), (bend, "sew-edges", "2", "3", "4"),
                      (bend, "split-edge", "2", "-o"), (bend, "split-edge", "2", "-o", self.path("out")), (bend, "split-edge", "2", "--text"),
                      (bend, "split-edge", "2", "-x")):
            done = run("tools/apply", *words)
            self.assertEqual((done.returncode, done.stdout), (2, ""), words)
            self.assertIn("tools/apply MAP SCHEME DART", done.stderr)
        self.assertIn("split-edge", run("tools/apply", "--help").stdout)

    def test_no_kernel(self):
        done = run("env", "GMAP_ARCHIVE=no/such.a", "tools/apply", "schemes/maps/bend.map", "split-edge", "2")
        self.assertEqual((done.returncode, done.stderr), (2, "apply: GMAP_ARCHIVE names no/such.a, which is no file\n"))
        done = run("env", f"GMAP_ARCHIVE={self.file('not.a', 'no archive')}", "tools/apply", "schemes/maps/bend.map", "split-edge", "2")
        self.assertEqual(done.returncode, 2)
        self.assertIn("the kernel's library was not built", done.stderr)


if __name__ == "__main__":
    sys.exit(unittest.main())
