"""Reading and writing the files of the tools, and what is said where something is wrong."""
import os
import re
import signal
import stat
import sys


class Fault(Exception):
    """What is wrong at a place of a file: a line, (line, column), or 'byte N', counted from 1."""

    def __init__(self, place, message):
        super().__init__(message)
        self.place = "{}:{}".format(*place) if isinstance(place, tuple) else str(place)


class Trouble(Exception):
    """What keeps a tool from its work and is no fault of a file that it was given."""


# Texts have no control characters but tabs and ends of lines; every scheme and every map file has some.
CONTROL = re.compile(rb"[\x00-\x08\x0e-\x1f\x7f]")


def data_of(path):
    with open(path, "rb") as file:
        return file.read()


def is_text(data):
    return CONTROL.search(data) is None


def text_in(data, what):
    """The text with its lines ended by \\n alone; `what` is what was expected, as 'a scheme's text'."""
    control = CONTROL.search(data)
    at = control.start() if control else None
    try:
        text = data.decode("utf-8-sig")
    except UnicodeDecodeError as error:
        at = error.start if at is None else min(at, error.start)
    if at is not None:
        before = data[:at]
        place = (before.count(b"\n") + 1, len(before.rsplit(b"\n", 1)[-1]) + 1)
        raise Fault(place, f"found bytes that are no text, expected {what} in UTF-8")
    return text.replace("\r\n", "\n").replace("\r", "\n")


def lines_of(text):
    lines = text.split("\n")
    return lines[:-1] if lines[-1] == "" else lines


def write_whole(path, data):
    """Writes a file, bytes or an iterator over them, so that it is there whole or not at all; what is no plain file, as a pipe, is written
    straight."""
    pieces = (data,) if isinstance(data, bytes) else data
    try:
        mode = os.stat(path).st_mode
    except FileNotFoundError:
        mode = None
    if mode is not None and not stat.S_ISREG(mode):
        with open(path, "wb") as file:
            file.writelines(pieces)
        return
    path = os.path.realpath(path)
    part = f"{path}.{os.getpid()}.part"
    try:
        with open(part, "xb") as file:
            file.writelines(pieces)
        if mode is not None:
            os.chmod(part, stat.S_IMODE(mode))
        os.replace(part, path)
    except OSError as error:
        raise OSError(error.errno, error.strerror, path) from None
    finally:
        if os.path.exists(part):
            os.remove(part)


def complain(message):
    print(message, file=sys.stderr)


def guarded(path, work):
    """Does the work on a file; 0 if all is well, 1 after a fault in it, which is printed."""
    try:
        return work() or 0
    except Fault as fault:
        complain(f"{path}:{fault.place}: {fault}")
    except OSError as error:
        complain(f"{error.filename}: {error.strerror}")
    return 1


def run(main):
    """Runs a tool and ends with its exit status: 0 all well, 1 a fault in a file, 2 wrong use or something that is lacking."""
    signal.signal(signal.SIGPIPE, signal.SIG_DFL)  # `.. | head` ends quietly
    sys.stdout.reconfigure(errors="backslashreplace")
    try:
        sys.exit(main(sys.argv[1:]))
    except Trouble as trouble:
        complain(f"{os.path.basename(sys.argv[0])}: {trouble}")
        sys.exit(2)
