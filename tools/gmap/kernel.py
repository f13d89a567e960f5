"""The kernel's calls, from its archive: made a shared library by the C compiler, once for each archive."""
import ctypes
import functools
import glob
import hashlib
import os
import shlex
import subprocess
import sys

from gmap.files import Trouble, complain, data_of

ROOT = os.path.dirname(os.path.dirname(os.path.dirname(os.path.abspath(__file__))))
HERE = os.path.join(ROOT, "tools", "gmap")
BUILT = os.path.join(ROOT, "target", "tools")


def changed(path):
    """When the file was last changed; before everything else where it is not there."""
    try:
        return os.stat(path).st_mtime_ns
    except FileNotFoundError:
        return -1


def make(out, command, what):
    """Has `command` make a file, which is there whole or not at all."""
    part = f"{out}.{os.getpid()}.part"
    try:
        os.makedirs(BUILT, exist_ok=True)
        done = subprocess.run(command(part), stdin=subprocess.DEVNULL, stdout=subprocess.PIPE, stderr=subprocess.STDOUT, text=True, errors="replace")
        if done.returncode != 0:
            raise Trouble(f"{what} was not built:\n{done.stdout}")
        os.replace(part, out)
    except OSError as error:
        raise Trouble(f"{what} was not built: {error.filename}: {error.strerror}") from None
    finally:
        if os.path.exists(part):
            os.remove(part)


def archive():
    """The archive that GMAP_ARCHIVE names, else that of these sources."""
    named = os.environ.get("GMAP_ARCHIVE")
    if named:
        if not os.path.isfile(named):
            raise Trouble(f"GMAP_ARCHIVE names {named}, which is no file")
        return os.path.abspath(named)
    sources = glob.glob(os.path.join(ROOT, "crates", "*", "src", "**", "*.rt"), recursive=True)
    tool, out = os.path.join(ROOT, "tools", "archive"), os.path.join(BUILT, "libkernel.a")
    if changed(out) <= max(map(changed, [tool, *sources])):
        if sys.stderr.isatty():
            complain("tools/archive builds the kernel's archive for these sources, which takes a minute")
        make(out, lambda part: [tool, part], "the kernel's archive")
    return out


def library(*archives):
    """The library of what gmap.h has inline and of the calls of an archive, where one is given. It is named after what it is made of, so that
    another archive or header makes another."""
    header, functions = os.path.join(ROOT, "include", "gmap.h"), os.path.join(HERE, "library.c")
    sources = b"".join(hashlib.sha256(data_of(path)).digest() for path in (*archives, header, functions, os.path.abspath(__file__)))
    path = os.path.join(BUILT, f"kernel-{hashlib.sha256(sources).hexdigest()[:16]}.so")
    if not os.path.exists(path):
        make(path, lambda part: [*shlex.split(os.environ.get("CC") or "gcc"), "-std=c11", "-O1", "-fPIC", "-shared", "-I", os.path.dirname(header),
                                 functions, "-Wl,--whole-archive", *archives, "-Wl,--no-whole-archive", "-o", part], "the kernel's library")
    try:
        return ctypes.CDLL(path)
    except OSError as error:
        raise Trouble(f"the kernel's library cannot be loaded: {error}") from None


def header_words():
    """A function that gives an answer's number in words, as gmap.h has them; no kernel is asked."""
    words = library().tool_words
    words.restype = ctypes.c_char_p
    return lambda number: words(number).decode()


class Answer:
    """An answer of the kernel: its number and values by the names of gmap.h, and its words."""

    def __init__(self, tool, word):
        for name in ("number", "node", "i", "j", "orbit", "added", "deleted", "length"):
            setattr(self, name, tool(name, word))
        self.words = tool("words", self.number).decode()


def lent(kind, values):
    """A buffer, which is not null where there are no values."""
    buffer = (kind * max(len(values), 1))()
    buffer[:len(values)] = values
    return buffer, ctypes.c_size_t(len(values))


class Kernel:
    """The calls. A table is what `load` gives; only the kernel looks into it."""

    @staticmethod
    @functools.lru_cache
    def loaded():
        return Kernel(library(archive()))

    def __init__(self, calls):
        self.calls = calls
        for name in ("check_table", "check_scheme", "load", "edit", "edit2", "write"):
            getattr(calls, "gmap_" + name).restype = ctypes.c_uint64
        for name in ("number", "node", "i", "j", "orbit", "added", "deleted"):
            getattr(calls, "tool_" + name).argtypes = [ctypes.c_uint64]
        calls.tool_length.argtypes, calls.tool_length.restype = [ctypes.c_uint64], ctypes.c_uint64
        calls.tool_words.restype = ctypes.c_char_p
        self.record, self.store = calls.tool_record(), calls.tool_store()
        self.max_file, self.max_scheme = calls.tool_max_file(), calls.tool_max_scheme()

    def answer(self, word):
        return Answer(lambda name, value: getattr(self.calls, "tool_" + name)(value), word)

    def words(self, number):
        return self.calls.tool_words(number).decode()

    def check_scheme(self, scheme):
        return self.answer(self.calls.gmap_check_scheme(*lent(ctypes.c_uint8, scheme)))

    def load(self, n, slots, file):
        """The answer, and the table, which holds the file's map, well-formed or not, or is all zero where the file is refused."""
        table, length = lent(ctypes.c_uint32, [0] * (self.record * slots))
        return self.answer(self.calls.gmap_load(n, slots, table, length, *lent(ctypes.c_uint8, file))), table

    def check_table(self, n, slots, table):
        return self.answer(self.calls.gmap_check_table(n, slots, table, ctypes.c_size_t(self.record * slots)))

    def edit(self, n, slots, table, scheme, *darts):
        """The edit at one dart, or at two."""
        call = self.calls.gmap_edit if len(darts) == 1 else self.calls.gmap_edit2
        store, length = lent(ctypes.c_uint32, [0] * (self.store * slots))
        return self.answer(call(n, slots, table, ctypes.c_size_t(self.record * slots), store, length,
                                *lent(ctypes.c_uint8, scheme), *map(ctypes.c_uint32, darts)))

    def write(self, n, slots, table):
        """The map file; the table must be one to which `check_table` answers 0."""
        out, length = lent(ctypes.c_uint8, bytes(self.max_file))
        answer = self.answer(self.calls.gmap_write(n, slots, table, ctypes.c_size_t(self.record * slots), out, length))
        if answer.number != 0:
            raise Trouble(f"the map was not written: refused {answer.number}: {answer.words}")
        return bytes(out[:answer.length])
