"""Rows as the program v6 runs them, and what they come to otherwise than they say."""
import fnmatch
import os
import shlex

from v6.host import program
from v6.host.files import read_bytes
from v6.host.program import ProgramError
from v6.rows.file import DISK_BYTES, HI, SWAP_AT, RowError, names

FILES = ("term", *(f"term.{line}" for line in range(1, 8)), "log", "final", "final2")
ENDED = 0, 7  # of runs whose log comes to its end: done, and a panic


def chosen(words, data):
    every = names(data)
    found = [name for name in every if any(fnmatch.fnmatch(name, word) or fnmatch.fnmatch(name, "*/" + word) for word in words)]
    for word in words:
        if not any(fnmatch.fnmatch(name, word) or fnmatch.fnmatch(name, "*/" + word) for name in every):
            raise RowError(f"{word}: no such row")
    return found


class Runner:
    """Runs rows in a folder of its own, by the program v6."""

    def __init__(self, v6, folder):
        command, *more = shlex.split(v6)
        self.words = [os.path.abspath(command) if os.sep in command else command, *more]
        self.folder, self.bases = folder, {None: read_bytes(HI)}

    def call(self, words, report=""):
        """The status of a command that is given in the folder, and its report."""
        there = os.getcwd()
        os.chdir(self.folder)
        try:
            return program.run([*self.words, *words])
        except OSError as error:
            raise ProgramError(f"{self.words[0]}: {error.strerror}: the program v6 is wanted; --v6 names it") from None
        finally:
            os.chdir(there)

    def judged(self, words):
        """The status of a row's command, and its report. The gate's host writes the bytes of memory to `final` alone: here a folder
        stands where another name is given, which can't be written either."""
        if words[:1] != ["memory"] or words[-1] not in ("term", "log"):
            return self.call(words)
        path = os.path.join(self.folder, words[-1])
        os.remove(path)
        os.mkdir(path)
        try:
            return self.call(words)
        finally:
            os.rmdir(path)

    def put(self, name, data):
        with open(os.path.join(self.folder, name), "wb") as file:
            file.write(data)

    def empty(self, name):
        """A file becomes empty, where it isn't."""
        path = os.path.join(self.folder, name)
        if not os.path.exists(path) or os.path.getsize(path):
            self.put(name, b"")

    def get(self, name):
        path = os.path.join(self.folder, name)
        return read_bytes(path) if os.path.exists(path) else b""

    def base(self, made):
        """The disk of examples/hi, or the one of a number that `make` makes."""
        if made not in self.bases:
            self.call(["make", str(made), "made"])
            self.bases[made] = self.get("made")
        return self.bases[made]

    def run(self, row):
        """What a row comes to: its image and, by name, what is to be compared."""
        image = row.image(self.base(row.disk.numbers["made"]))
        images = [image] + ([row.second.image(self.base(row.second.numbers["made"]))] if row.second else [])
        for name, data in (*zip(("image", "image2"), images), ("script", row.script), ("empty", b"")):
            self.put(name, data)
        for name in FILES:
            self.empty(name)
        came = {"images": images}
        came["status"], came["report"] = self.judged(row.command().split(" ") if row.command() else [])
        came.update((name, self.get(name)) for name in FILES)
        for disk, final in zip(row.disks(), ("final", "final2")):
            if disk.check is not None:
                self.put("left", came[final])
                came[f"check of {final}"] = self.call(["check", "left"])[1]
        if came["log"] and came["status"] in ENDED:
            came["audit"] = self.call(["audit", "log"])[1]
        return image, came


def differences(row, image, came):
    """What a run came to otherwise than its row says: (what, wanted, came)."""
    wanted = {"status": row.numbers["status"], "report": row.lines["report"]}
    came = {**came, "shown": len(came["term"])}
    wanted.update({"term": row.terms[0]} if row.numbers["shown"] is None else {"shown": row.numbers["shown"]})
    wanted.update((f"term.{line}", row.terms[line]) for line in range(1, 8))
    log = row.wanted_log(image)
    if "audit" in came or row.lines["audit"] is not None:
        wanted["audit"] = row.lines["audit"] or b"lawful: %d lines\n" % came["log"].count(b"\n")
    if log is not None:
        wanted["log"] = log
        came["log"] = came["log"][-len(log):] if row.is_end else came["log"]
    found = [(what, value, came.get(what, b"")) for what, value in wanted.items() if came.get(what, b"") != value]
    if log is None and came["log"].endswith(b"end\n") != row.ends():
        found.append(("last line of the log", b"end" if row.ends() else b"none", came["log"][-20:]))
    found += left_differences(row.disk, "final", image, row.leaves_disk(), came)
    if row.second:
        return [*found, *left_differences(row.second, "final2", came["images"][1], row.leaves_disk(), came)]
    return found + [("final2", b"", came["final2"])] * bool(came["final2"])


def left_differences(disk, name, image, is_left, came):
    """The same of a disk that is left. The first one has a swap area, which is no part of the whole of it."""
    whole, left = disk.wanted(image), came[name]
    counts = before_swap if name == "final" else bytes
    if (whole is not None or not is_left) and counts(left) != counts(whole or b""):
        yield name, counts(whole or b""), counts(left)
    for at, data in disk.left or []:
        if (whole is None or at >= SWAP_AT) and left[at : at + len(data)] != data:
            yield f"{name} at {at}", data, left[at : at + len(data)]
    if disk.check is not None and came[f"check of {name}"] != disk.check:
        yield f"check of {name}", disk.check, came[f"check of {name}"]


def before_swap(disk):
    """A disk, as far as it comes before the swap area; or all of what isn't as long as a disk."""
    return disk[:SWAP_AT] if len(disk) == DISK_BYTES else disk


def plain(data):
    table = {0o15: "\\r", 0o11: "\\t", 0o134: "\\\\", 0o42: '\\"'}
    return "".join(table.get(b) or (chr(b) if 32 <= b < 127 else f"\\{b:03o}") for b in data)
