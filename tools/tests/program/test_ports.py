"""Real files that fail, in each place where a command names one: the named fault, and what was there before is there still."""
import errno
import os
import resource
import shlex
import shutil
import signal
import subprocess
import threading

from tests.common import TOP, V6, Case, read, write

NOBODY = 65534
LONG = 300  # seconds: what a busy machine never takes for one of these
SENTINEL = b"what was there before\n" * 300
IMAGE = os.path.join(TOP, "examples", "hi", "image")
RUN = ("run", "IMAGE", "1200", "SCRIPT", "TERM", "LOG", "FINAL")
RUN2 = ("run2", *RUN[1:], "IMAGE2", "FINAL2")
MEMORY = ("memory", "IMAGE", "1200", "SCRIPT", "FINAL")
CHECK, MAKE = ("check", "IMAGE"), ("make", "3", "FINAL")
COMMANDS = RUN, RUN2, MEMORY, CHECK, MAKE
INPUTS, OUTPUTS = ("IMAGE", "IMAGE2", "SCRIPT"), ("TERM", "LOG", "FINAL", "FINAL2")
USAGE, READ_FAULT, WRITE_FAULT, SCRIPT_FAULT, IMAGE_FAULT, SECOND_FAULT = 1, 2, 3, 5, 6, 12
TOO_LONG = {"IMAGE": (IMAGE_FAULT, "image: too long\n"), "IMAGE2": (SECOND_FAULT, "second image: too long\n"),
            "SCRIPT": (SCRIPT_FAULT, "script: too long\n")}
DISK_BYTES, SWAP_BYTES = 2494464, 446464
SIZES = {"run": DISK_BYTES, "run2": DISK_BYTES, "memory": 64 * 1200 + SWAP_BYTES, "make": 2048000}


def port_of(place):
    """What a report calls the port of a file."""
    return "second" if place.endswith("2") else place.lower()


class Ports(Case):
    """Each test has files that are good under the names of all places; outputs hold something already."""

    def setUp(self):
        super().setUp()
        os.chmod(self.folder, 0o777)
        self.renew()

    def renew(self):
        shutil.copyfile(IMAGE, self.path("IMAGE"))
        shutil.copyfile(IMAGE, self.path("IMAGE2"))
        write(self.path("SCRIPT"), b"run 20\n")
        for name in OUTPUTS:
            self.put(name, SENTINEL)
            os.chmod(self.path(name), 0o666)

    def v6(self, words, v6=None, **more):
        """The status of a command, and its report."""
        command = shlex.split(v6 or V6)
        command[0] = os.path.abspath(command[0]) if os.sep in command[0] else command[0]
        more = {"stdout": subprocess.PIPE, **more}
        done = subprocess.run([*command, *words], cwd=self.folder, stderr=subprocess.PIPE, **more)
        self.assertEqual(done.stderr, b"")
        return done.returncode, None if done.stdout is None else done.stdout.decode()

    def places(self, names):
        """Each command that names one of these files, with the name."""
        for command in COMMANDS:
            for name in names:
                if name in command:
                    yield command, name
                    self.renew()

    def named(self, command, place, path):
        return [path if word == place else word for word in command]

    def bytes(self, *names):
        return {name: read(self.path(name)) for name in names}

    def untouched(self, *names):
        self.assertEqual(self.bytes(*names), dict.fromkeys(names, SENTINEL))

    def read_fault(self, command, place, path, **more):
        """A fault of a file that is read: nothing else is touched."""
        self.assertEqual(self.v6(self.named(command, place, path), **more), (READ_FAULT, f"read fault: {port_of(place)}\n"))
        self.untouched(*OUTPUTS)

    def write_fault(self, command, place, path, **more):
        """A file that can't be opened for writing: what is opened before it has been emptied, what comes after it is as it
        was."""
        self.assertEqual(self.v6(self.named(command, place, path), **more), (WRITE_FAULT, f"write fault: {port_of(place)}\n"))
        for name in OUTPUTS:
            is_before = name in command and command.index(name) < command.index(place)
            if name != path:
                self.assertEqual(read(self.path(name)), b"" if is_before else SENTINEL)
        self.assertEqual((read(self.path("IMAGE")), read(self.path("IMAGE2"))), (read(IMAGE), read(IMAGE)))

    def test_all_is_well(self):
        """The files as they are made are good, so that each fault comes from the one that isn't."""
        for command in COMMANDS:
            self.put("FINAL2", SENTINEL)
            status, report = self.v6(command)
            self.assertEqual((status, report), (0, "ok 7 nodes 0 free\n" if command == CHECK else ""))
            if command != CHECK:
                self.assertEqual(len(read(self.path("FINAL"))), SIZES[command[0]])
            if command in (RUN, RUN2):
                self.assertEqual(self.bytes("TERM")["TERM"], b"HI\r\n")
            if command == RUN2:
                self.assertEqual(read(self.path("FINAL2")), read(IMAGE).ljust(DISK_BYTES, b"\0"))
            else:
                self.untouched("FINAL2")

    def test_missing(self):
        for command, place in self.places(INPUTS):
            self.read_fault(command, place, "missing")
            self.assertFalse(os.path.lexists(self.path("missing")))
        for command, place in self.places(OUTPUTS):
            self.write_fault(command, place, "missing/file")
            self.assertFalse(os.path.lexists(self.path("missing")))

    def test_no_name(self):
        """An empty name, one that is too long, and one below a plain file."""
        for path in ("", "n" * 300, "IMAGE/file"):
            for command, place in self.places(INPUTS):
                self.read_fault(command, place, path)
            for command, place in self.places(OUTPUTS):
                self.write_fault(command, place, path)

    def test_folder(self):
        os.mkdir(self.path("folder"))
        self.put("folder/file", SENTINEL)
        for command, place in self.places(INPUTS):
            self.read_fault(command, place, "folder")
        for command, place in self.places(OUTPUTS):
            self.write_fault(command, place, "folder")
        self.assertEqual((os.listdir(self.path("folder")), read(self.path("folder/file"))), (["file"], SENTINEL))

    def without_rights(self):
        """The program for a user who may not do all, and the words for subprocess that make it run so."""
        if os.geteuid():
            return {}
        command = shlex.split(V6)
        if len(command) > 1 or not os.path.isfile(command[0]):
            self.skipTest("the program can't be copied for another user")
        shutil.copy(command[0], self.path("program"))
        os.chmod(self.path("program"), 0o755)
        more = {"user": NOBODY, "group": NOBODY, "extra_groups": [], "v6": self.path("program")}
        try:
            self.v6(CHECK, **more)
        except OSError as error:
            if error.errno not in (errno.EPERM, errno.EACCES):
                raise
            self.skipTest("this user may not become another, or the other doesn't reach the program")
        return more

    def test_no_permission(self):
        more = self.without_rights()
        self.put("locked", SENTINEL)
        os.chmod(self.path("locked"), 0)
        os.mkdir(self.path("closed"), 0o555)
        for command, place in self.places(INPUTS):
            self.read_fault(command, place, "locked", **more)
        for command, place in self.places(OUTPUTS):
            self.write_fault(command, place, "locked", **more)
        for command, place in self.places(OUTPUTS):
            self.write_fault(command, place, "closed/file", **more)
        os.chmod(self.path("locked"), 0o600)
        self.assertEqual((read(self.path("locked")), os.listdir(self.path("closed"))), (SENTINEL, []))

    def test_full_device(self):
        """/dev/full takes no byte; read, it has no end. What a run writes on other ports is a front of what it would have."""
        for command, place in self.places(INPUTS):
            self.assertEqual(self.v6(self.named(command, place, "/dev/full")), TOO_LONG[place])
            self.untouched(*OUTPUTS)
        whole = {}
        for command in (RUN, RUN2, MEMORY, MAKE):
            self.v6(command)
            whole[command] = self.bytes(*OUTPUTS)
            self.renew()
        for command, place in self.places(OUTPUTS):
            wanted = WRITE_FAULT, f"write fault: {port_of(place)}\n"
            self.assertEqual(self.v6(self.named(command, place, "/dev/full")), wanted)
            for name in OUTPUTS:
                if name in command and name != place:
                    self.assertTrue(whole[command][name].startswith(read(self.path(name))), name)
        self.assertEqual(read(self.path("IMAGE")), read(IMAGE))

    def pipe(self, body):
        """A pipe, and what is done at its other end meanwhile. Where nobody comes to this end that waits for ever, and nobody for it."""
        os.mkfifo(self.path("pipe"))
        thread = threading.Thread(target=body, daemon=True)
        thread.start()
        return thread

    def ended(self, thread):
        thread.join(LONG)
        self.assertFalse(thread.is_alive())
        os.remove(self.path("pipe"))

    def endless(self):
        try:
            with open(self.path("pipe"), "wb", buffering=0) as file:
                while True:
                    file.write(b"tick\n" * 1000)
        except BrokenPipeError:
            pass

    def test_endless_pipe(self):
        """An image is read to one byte more than a disk has, and a script to one more than it may have."""
        for command, place in self.places(INPUTS):
            thread = self.pipe(self.endless)
            self.assertEqual(self.v6(self.named(command, place, "pipe")), TOO_LONG[place])
            self.ended(thread)
            self.untouched(*OUTPUTS)

    def test_pipe_that_is_read(self):
        """A pipe takes what a file does, also where its reader takes a little at a time."""
        for command, place in self.places(OUTPUTS):
            self.v6(command)
            whole, got = read(self.path(place)), []

            def take(got=got):
                with open(self.path("pipe"), "rb", buffering=0) as file:
                    while piece := file.read(1000):
                        got.append(piece)

            thread = self.pipe(take)
            self.assertEqual(self.v6(self.named(command, place, "pipe")), (0, ""))
            self.ended(thread)
            self.assertEqual(b"".join(got), whole)

    def test_pipe_that_closes(self):
        """Nobody reads on: the fault is the port's, and the program doesn't die of it."""
        for command, place in self.places(("FINAL", "FINAL2")):
            def take():
                with open(self.path("pipe"), "rb", buffering=0) as file:
                    file.read(100)

            thread = self.pipe(take)
            self.assertEqual(self.v6(self.named(command, place, "pipe")), (WRITE_FAULT, f"write fault: {port_of(place)}\n"))
            self.ended(thread)

    def test_limit(self):
        """A file that may not have more bytes holds as many as it may; the signal that tells of it is ignored here."""
        def limited():
            resource.setrlimit(resource.RLIMIT_FSIZE, (10000, 10000))
            signal.signal(signal.SIGXFSZ, signal.SIG_IGN)

        for command, place in self.places(("FINAL",)):
            self.v6(command)
            whole = read(self.path(place))
            self.assertEqual(self.v6(command, preexec_fn=limited), (WRITE_FAULT, "write fault: final\n"))
            self.assertEqual(read(self.path(place)), whole[:10000])

    def test_one_file_is_read_twice(self):
        for command in (RUN, RUN2, MEMORY):
            self.assertEqual(self.v6(self.named(command, "SCRIPT", "IMAGE")), (SCRIPT_FAULT, "script: line 1\n"))
            self.untouched(*OUTPUTS)
            self.assertEqual(self.v6(self.named(command, "IMAGE", "SCRIPT")), (IMAGE_FAULT, "image: bad super-block\n"))
            self.untouched(*OUTPUTS)
        wanted = SECOND_FAULT, "second image: bad super-block\n"
        self.assertEqual(self.v6(self.named(RUN2, "IMAGE2", "SCRIPT")), wanted)
        self.untouched(*OUTPUTS)
        self.assertEqual(self.v6(self.named(RUN2, "IMAGE2", "IMAGE")), (0, ""))
        self.assertEqual(read(self.path("FINAL2")), read(IMAGE).ljust(DISK_BYTES, b"\0"))

    def test_one_file_is_read_and_written(self):
        """All that is read is read before anything is opened for writing: each output may be an input, by any of its names."""
        for command in (RUN, RUN2, MEMORY):
            self.renew()
            self.v6(command)
            outputs = [name for name in OUTPUTS if name in command]
            whole = self.bytes(*outputs)
            for place in outputs:
                for source in (name for name in INPUTS if name in command):
                    for link in (None, os.link, os.symlink):
                        self.renew()
                        if link:
                            link(self.path(source), self.path("other"))
                        self.assertEqual(self.v6(self.named(command, place, "other" if link else source)), (0, ""))
                        self.assertEqual(read(self.path(source)), whole[place])
                        if link:
                            os.remove(self.path("other"))

    def test_one_file_is_written_twice(self):
        """Nothing is said of its bytes; the run is done, and its other files are whole."""
        self.v6(RUN2)
        whole = self.bytes(*OUTPUTS)
        for one, other in (("TERM", "LOG"), ("LOG", "FINAL"), ("TERM", "FINAL"), ("FINAL", "FINAL2"), ("LOG", "FINAL2")):
            self.renew()
            self.assertEqual(self.v6(self.named(RUN2, other, one)), (0, ""))
            for name in set(OUTPUTS) - {one, other}:
                self.assertEqual(read(self.path(name)), whole[name])
            self.untouched(other)

    def test_lines(self):
        """Each line of `run8` has a file beside that of the console. Where one can't be opened, those before it have been emptied, and
        those after it are as they were."""
        lines = [f"TERM.{line}" for line in range(1, 8)]
        for line in (None, *range(1, 8)):
            self.renew()
            for name in lines:
                self.put(name, SENTINEL)
            if line:
                os.remove(self.path(lines[line - 1]))
                os.mkdir(self.path(lines[line - 1]))
            wanted = (WRITE_FAULT, f"write fault: line{line}\n") if line else (0, "")
            self.assertEqual(self.v6(("run8", *RUN[1:])), wanted)
            self.assertEqual(read(self.path("TERM")), b"" if line else b"HI\r\n")
            for number, name in enumerate(lines, 1):
                if number == line:
                    os.rmdir(self.path(name))
                else:
                    self.assertEqual(read(self.path(name)), SENTINEL if line and number > line else b"")
            if line:
                self.untouched("LOG", "FINAL")
            self.untouched("FINAL2")

    def test_report(self):
        """Standard output that takes nothing is a fault of `check` and `demo` alone, and leaves a status that isn't done."""
        for words, status in ((CHECK, WRITE_FAULT), (("demo", "0"), WRITE_FAULT), (RUN, 0), (MAKE, 0), ((), USAGE),
                              (("check", "missing"), READ_FAULT)):
            with open("/dev/full", "wb") as full:
                self.assertEqual(self.v6(words, stdout=full), (status, None))
            reading, writing = os.pipe()
            os.close(reading)
            with os.fdopen(writing, "wb") as closed:
                self.assertEqual(self.v6(words, stdout=closed), (status, None))
