"""What the tests of the tools share: the tools' own modules, a folder to write in, and a kernel that is wrong."""
import os
import subprocess
import sys
import tempfile
import unittest

ROOT = os.path.dirname(os.path.dirname(os.path.dirname(os.path.abspath(__file__))))
os.chdir(ROOT)
sys.dont_write_bytecode = True
sys.path.insert(0, os.path.join(ROOT, "tools"))

# A kernel that gives every call the same answer, which stands for the word ANSWER.
WRONG = "".join(f"unsigned long long gmap_{call}(void);\nunsigned long long gmap_{call}(void) {{ return ANSWER; }}\n"
                for call in ("check_table", "check_scheme", "edit", "edit2", "load", "write", "count"))


def run(*words, **more):
    return subprocess.run(words, stdin=subprocess.DEVNULL, capture_output=True, text=True, **more)


def wrong_kernel(folder, answer):
    """The archive of a kernel that answers every call with this word."""
    source, part, archive = (os.path.join(folder, name) for name in ("wrong.c", "wrong.o", "wrong.a"))
    with open(source, "w") as file:
        file.write(WRONG)
    subprocess.run([*os.environ.get("CC", "gcc").split(), "-fPIC", f"-DANSWER={answer}ull", "-c", source, "-o", part], check=True)
    subprocess.run(["ar", "rcs", archive, part], check=True)
    return archive


class Case(unittest.TestCase):
    maxDiff = None

    def setUp(self):
        folder = tempfile.TemporaryDirectory()
        self.addCleanup(folder.cleanup)
        self.folder = folder.name

    def file(self, name, content):
        path = os.path.join(self.folder, name)
        with open(path, "wb") as file:
            file.write(content if isinstance(content, bytes) else content.encode())
        return path

    def path(self, name):
        return os.path.join(self.folder, name)
