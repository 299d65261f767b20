"""Hosts that fail: what stands under a name in place of a plain file, and what a command may come to then.

A host is what stands under each name, the port that shares another's file, and a limit for the bytes of a file. Of a run over
it several answers may be right: a fault shows where bytes are given out, 2,048 at a time.
"""
import os
import stat
import threading
from dataclasses import dataclass, field

IMAGE_BYTES, SCRIPT_BYTES = 2494465, 1048577  # that are read of an image and of a script at the most
FAULT = {"missing", "folder", "locked", "below a file", "round"}  # what can't be opened, or gives no byte
READ_KINDS = ("missing", "folder", "locked", "below a file", "round", "endless", "endless pipe", "slow pipe", "empty")
WRITE_KINDS = ("missing", "folder", "locked", "below a file", "full", "full", "pipe", "closed pipe", "null", "there", "there")
SENTINEL = b"what was there before\n" * 300


@dataclass
class Host:
    """Kinds by name; pairs of names that are one file; the most bytes that a file may have, or None."""

    kinds: dict = field(default_factory=dict)
    same: tuple = ()
    limit: int = None

    def said(self):
        said = [f"{name}: {kind}" for name, kind in self.kinds.items()]
        said += [" and ".join(self.same) + " are one file"] if self.same else []
        return ", ".join(said + ([f"files have at most {self.limit} bytes"] if self.limit is not None else []))


def random_host(rng, command):
    inputs = [name for name in ("image", "script", "image2") if name in command]
    outputs = [name for name in ("term", "log", "final", "final2") if name in command]
    outputs += [f"term.{line}" for line in range(1, 8)] if command[0] == "run8" else []
    kind = rng.random()
    if kind < 0.3:
        return Host({rng.choice(inputs): rng.choice(READ_KINDS)})
    if kind < 0.7:
        names = rng.sample(outputs, rng.choice((1, 1, min(2, len(outputs)))))
        return Host({name: rng.choice(WRITE_KINDS) for name in names})
    if kind < 0.75:
        return Host({"report": rng.choice(("full", "closed pipe", "closed"))})
    if kind < 0.88:
        return Host(limit=rng.choice((0, 1, 100, 2047, 2048, 2049, 4096, 8192, 10000, 100000, 2494463, 2494464)))
    return Host(same=tuple(rng.sample(inputs + outputs, 2)))


class Stand:
    """The files of a host in a folder: made before a run, and looked at after it."""

    def __init__(self, host, folder, files):
        self.host, self.folder, self.files = host, folder, files
        self.threads, self.taken = [], {}
        for name, data in files.items():
            if name not in host.kinds and not (host.same and name == host.same[1]):
                self.write(name, data)
        if host.same:
            one, other = host.same
            if not os.path.exists(self.path(one)):
                self.write(one, files.get(other, SENTINEL))
            os.link(self.path(one), self.path(other))
        for name, kind in host.kinds.items() - {("report", host.kinds.get("report"))}:
            getattr(self, "put_" + kind.replace(" ", "_"))(name)

    def path(self, name):
        return os.path.join(self.folder, name)

    def write(self, name, data):
        with open(self.path(name), "wb") as file:
            file.write(data)
        os.chmod(self.path(name), 0o666)

    def put_missing(self, name):
        os.symlink("no such folder/file", self.path(name))

    def put_folder(self, name):
        os.mkdir(self.path(name))

    def put_locked(self, name):
        self.write(name, SENTINEL)
        os.chmod(self.path(name), 0)

    def put_below_a_file(self, name):
        self.write(name + ".plain", SENTINEL)
        os.symlink(name + ".plain/file", self.path(name))

    def put_round(self, name):
        os.symlink(name, self.path(name))

    def put_endless(self, name):
        os.symlink("/dev/zero", self.path(name))

    def put_full(self, name):
        os.symlink("/dev/full", self.path(name))

    def put_null(self, name):
        os.symlink("/dev/null", self.path(name))

    def put_empty(self, name):
        self.write(name, b"")

    def put_there(self, name):
        self.write(name, SENTINEL)

    def put_endless_pipe(self, name):
        self.pipe(name, self.feed, None)

    def put_slow_pipe(self, name):
        self.pipe(name, self.feed, self.files[name])

    def put_pipe(self, name):
        self.pipe(name, self.take, None)

    def put_closed_pipe(self, name):
        self.pipe(name, self.take, 100)

    def pipe(self, name, body, what):
        os.mkfifo(self.path(name))
        os.chmod(self.path(name), 0o666)
        thread = threading.Thread(target=body, args=(name, what), daemon=True)
        self.threads.append((name, thread))
        thread.start()

    def feed(self, name, data):
        """Bytes into a pipe, a few at a time, or without an end."""
        try:
            with open(self.path(name), "wb", buffering=0) as file:
                while data is None:
                    file.write(b"endless\n" * 500)
                for at in range(0, len(data), 1000):
                    file.write(data[at : at + 1000])
        except OSError:
            pass

    def take(self, name, most):
        """All bytes out of a pipe, or the first and no more."""
        got = b""
        with open(self.path(name), "rb", buffering=0) as file:
            while most is None or len(got) < most:
                more = file.read(4096 if most is None else min(4096, most - len(got)))
                if not more:
                    break
                got += more
        self.taken[name] = got

    def end(self):
        """Lets go of pipes that nobody has opened, and waits for the others."""
        for name, thread in self.threads:
            while thread.is_alive():
                handle = os.open(self.path(name), os.O_RDWR | os.O_NONBLOCK)
                thread.join(0.02)
                os.close(handle)
                thread.join(0.02)

    def bytes(self, name):
        """What came to stand under a name, or None where no plain file does."""
        if name in self.taken:
            return self.taken[name]
        try:
            if not stat.S_ISREG(os.stat(self.path(name)).st_mode):
                return None
            with open(self.path(name), "rb") as file:
                return file.read()
        except OSError:
            return None

    def is_there_still(self, name):
        """Whether what can't be opened for writing is as it was."""
        kind = self.host.kinds[name]
        if kind == "folder":
            return os.path.isdir(self.path(name)) and not os.listdir(self.path(name))
        if kind in ("missing", "round"):
            return not os.path.exists(self.path(name))
        place = self.path(name + ".plain") if kind == "below a file" else self.path(name)
        with open(place, "rb") as file:
            return file.read() == SENTINEL


def input_bytes(host, name, data):
    """The bytes that a command reads under a name, or None where that is a fault."""
    kind = host.kinds.get(name)
    if kind in FAULT:
        return None
    if kind == "empty":
        return b""
    if kind == "endless":
        return bytes(IMAGE_BYTES)
    if kind == "endless pipe":
        return (b"endless\n" * (IMAGE_BYTES // 8 + 1))[:IMAGE_BYTES]
    return data


def write_faults(host, outputs):
    """The ports of which one may be at fault, by the bytes that a whole run writes to each, and whether a fault must come. The
    ports stand in the order in which they are opened."""
    for name in outputs:
        if host.kinds.get(name) in FAULT:
            return [name], True
    may, must = [], False
    for name, data in outputs.items():
        kind = host.kinds.get(name)
        if kind == "full" and data:
            may, must = may + [name], True
        elif kind == "closed pipe" and len(data) > 100:
            may, must = may + [name], must or len(data) > 100 + 2**20
        elif kind is None and host.limit is not None and len(data) > host.limit:
            may, must = may + [name], True
    return may, must
