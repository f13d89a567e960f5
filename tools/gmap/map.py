"""Maps: their form as text and as the map file that the kernel loads. Whether a map is well-formed, the kernel decides."""
import re
import struct

from gmap.files import Fault, is_text, lines_of, text_in

SLOTS = 1024  # slots of a table at most
LONGEST = 9 + SLOTS * (6 + 2 * 4)  # bytes of a map file at most
DARTS = 1024  # darts of the bench program's input at most
BENCH_SCHEME = 552  # bytes of its scheme at most, a few more than a scheme can have


class Map:
    """A map in the form, well-formed or not."""

    def __init__(self, n, slots):
        self.n, self.slots = n, slots
        self.live = {}  # slot: (links, tag)
        self.places = {}  # slot: where its record stands in the file, as a fault names it

    def file(self):
        """The map file's bytes: slots, tags and links, each section after its count."""
        count = struct.pack("<H", len(self.live))
        order = sorted(self.live)
        return b"".join([
            struct.pack("<BH", self.n, self.slots),
            count, *(struct.pack("<H", slot) for slot in order),
            count, *(struct.pack("<I", self.live[slot][1]) for slot in order),
            count, *(struct.pack("<H", link) for slot in order for link in self.live[slot][0]),
        ])

    def text(self, marks=None):
        """The text; a slot that `marks` has words for gets them as a comment at its line."""
        comments = {slot: f" # {words}" for slot, words in (marks or {}).items()}
        lines = [f"n {self.n}", f"slots {self.slots}", "# slot " + " ".join(f"a{i}" for i in range(self.n + 1)) + " tag"]
        for slot, (links, tag) in sorted(self.live.items()):
            lines.append(" ".join(map(str, [slot, *links, tag])) + comments.get(slot, ""))
        return "\n".join(lines) + "\n"

    def orbit(self, dart, dimensions):
        """The darts that links of these dimensions lead to from a dart of a well-formed map."""
        found, ways = {dart}, [dart]
        while ways:
            links = self.live[ways.pop()][0]
            more = {links[i] for i in dimensions} - found
            found |= more
            ways += more
        return found


def map_of_text(text):
    m = n = None
    lines = lines_of(text)
    for number, line in enumerate(lines, 1):
        words = line.split("#", 1)[0].split()
        if not words:
            continue
        found = " ".join(words)
        if n is None:
            if found not in ("n 2", "n 3"):
                raise Fault(number, f"found '{found}', expected 'n 2' or 'n 3'")
            n = int(words[1])
        elif m is None:
            if words[0] != "slots" or len(words) != 2 or not re.fullmatch("[0-9]{1,5}", words[1]) or not 1 <= int(words[1]) <= SLOTS:
                raise Fault(number, f"found '{found}', expected 'slots' and a number from 1 to {SLOTS}")
            m = Map(n, int(words[1]))
        else:
            if len(words) != n + 3 or not all(re.fullmatch("[0-9]{1,10}", word) for word in words):
                raise Fault(number, f"found '{found}', expected {n + 3} numbers: slot, {n + 1} links, tag")
            slot, *links, tag = map(int, words)
            if slot >= m.slots or slot in m.live:
                raise Fault(number, f"found slot {slot}, expected one below {m.slots} that is not listed above")
            if any(link > 65535 for link in links) or tag > 0xFFFFFFFF:
                raise Fault(number, f"found '{found}', expected links of 16 bits and a tag of 32")
            m.live[slot], m.places[slot] = (links, tag), str(number)
    if m is None:
        raise Fault(len(lines) + 1, "the text ends here, expected lines 'n ..' and 'slots ..'")
    return m


def map_of_file(data):
    """The map of a map file; a fault where it is not in its form."""
    at = 0

    def take(size, what):
        nonlocal at
        if at + size > len(data):
            raise Fault(f"byte {len(data) + 1}", f"found the end, expected {what}")
        at += size
        return int.from_bytes(data[at - size:at], "little")

    n, slots = take(1, "n"), take(2, "the number of slots")
    if n not in (2, 3) or not 1 <= slots <= SLOTS:
        raise Fault("byte 1", f"found n = {n} and {slots} slots, expected n 2 or 3 and 1 to {SLOTS} slots")
    live = take(2, "the number of live darts")
    order = [take(2, "a slot") for _ in range(live)]
    if order != sorted(set(order)) or (order and order[-1] >= slots):
        raise Fault("byte 6", f"found slots {order}, expected them ascending and below {slots}")
    sections, places = [], []
    for size, each, what in ((4, 1, "a tag"), (2, n + 1, "a link")):
        if (count := take(2, "the number of live darts")) != live:
            raise Fault(f"byte {at - 1}", f"found the count {count}, expected {live} as before")
        places = [at + 1 + size * each * k for k in range(live)]
        sections.append([[take(size, what) for _ in range(each)] for _ in range(live)])
    if at < len(data):
        raise Fault(f"byte {at + 1}", f"found {len(data) - at} bytes more, expected the end")
    m = Map(n, slots)
    for slot, tag, links, place in zip(order, *sections, places):
        m.live[slot], m.places[slot] = (links, tag[0]), f"byte {place}"
    return m


def file_in(data):
    """The map file in a file, be it text or a map file; a text that is not in the form is a fault."""
    return map_of_text(text_in(data, "a map's text")).file() if is_text(data) else data


def map_in(data):
    """The map in a file, be it text or a map file."""
    return map_of_text(text_in(data, "a map's text")) if is_text(data) else map_of_file(data)


def head(file):
    """n and the number of slots that a map file begins with; None where it is too short for them."""
    return struct.unpack_from("<BH", file) if len(file) >= 3 else None


class Misfit(Exception):
    """A section of the bench program's input that it does not take: 'map', 'scheme' or 'darts', and why."""

    def __init__(self, section, message):
        super().__init__(message)
        self.section = section


def bench_input(map_file, scheme, darts):
    """The bench program's input: each section after its two-byte count."""
    for section, data, expected in (("map", map_file, "a map file, which tools/map assemble makes of it"),
                                    ("scheme", scheme, "a scheme's bytes, which tools/scheme assemble makes of it")):
        if data and is_text(data):
            raise Misfit(section, f"found a text, expected {expected}")
    for section, found, unit, most in (("map", len(map_file), "bytes", LONGEST), ("scheme", len(scheme), "bytes", BENCH_SCHEME),
                                       ("darts", len(darts), "darts", DARTS)):
        if found > most:
            raise Misfit(section, f"found {found} {unit}, expected at most {most}")
    for dart in darts:
        if dart > 65535:
            raise Misfit("darts", f"found dart {dart}, expected at most 65535, as a dart has two bytes")
    return b"".join([struct.pack("<H", len(map_file)), map_file, struct.pack("<H", len(scheme)), scheme,
                     struct.pack(f"<{len(darts) + 1}H", len(darts), *darts)])
