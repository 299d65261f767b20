"""Each command has enough in 256 KB of stack: it does there what it does with more."""
import os
import resource
import shlex
import subprocess
import tempfile
import unittest

from tests.common import TOP, V6, read

KB = 256
# where the magic of /etc/init stands on that disk: with 0410 its text is read by itself, to be shared
MAGIC, SHARED = 66 * 512, (0o410).to_bytes(2, "little")
IMAGE, SCRIPT = (os.path.join(TOP, "examples", "hi", name) for name in ("image", "script"))
RUN = "run", IMAGE, "1000", SCRIPT, "term", "log", "final"
COMMANDS = (RUN, ("run8", *RUN[1:]), ("run2", *RUN[1:], IMAGE, "final2"), ("memory", *RUN[1:4], "final"), ("check", IMAGE),
            ("make", "3", "final"), ("demo", "3"))


def limit():
    resource.setrlimit(resource.RLIMIT_STACK, (KB * 1024, KB * 1024))


def done(words, before=None):
    """The status of a command, its report, and the files that it leaves in a folder of its own."""
    with tempfile.TemporaryDirectory() as folder:
        ended = subprocess.run([*shlex.split(V6), *words], cwd=folder, capture_output=True, preexec_fn=before)
        files = {name: read(os.path.join(folder, name)) for name in sorted(os.listdir(folder))}
        return ended.returncode, ended.stdout, ended.stderr, files


class Stack(unittest.TestCase):
    def test_commands(self):
        for words in COMMANDS:
            with self.subTest(words[0]):
                status, *rest = done(words, limit)
                self.assertEqual(status, 0)
                self.assertTrue([status, *rest] == list(done(words)), "something else is left")

    def test_audit(self):
        with tempfile.TemporaryDirectory() as folder:
            log = os.path.join(folder, "log")
            with open(log, "wb") as file:
                file.write(done(RUN)[3]["log"])
            self.assertEqual(done(("audit", log), limit), done(("audit", log)))

    def test_shared_text(self):
        with tempfile.TemporaryDirectory() as folder:
            image = os.path.join(folder, "image")
            disk = bytearray(read(IMAGE))
            disk[MAGIC : MAGIC + 2] = SHARED
            with open(image, "wb") as file:
                file.write(disk)
            status, *rest = done(("run", image, *RUN[2:]), limit)
            self.assertEqual(status, 0)
            self.assertIn(b"text 1 ", rest[2]["log"])
            self.assertTrue([status, *rest] == list(done(("run", image, *RUN[2:]))), "something else is left")
