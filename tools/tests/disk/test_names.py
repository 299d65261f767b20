"""Disks: what changes names, what a folder and a table keep, more room, and archives and tapes."""
import os
import struct
import subprocess
import sys
import time

from tests.common import TOOLS, V6, read, v6, write
from tests.disk.disks import BESIDE, TO_READ, Disks, disk_main

from v6.disk.survey import Survey
from v6.disk.volume import Volume

OTHER = """
import subprocess, sys
disk, *words = sys.argv[1:]
done = subprocess.run(words, input=sys.stdin.buffer.read())
with open(disk, "r+b") as file:
    file.seek(-7, 2)
    file.write(b"changed")
sys.exit(done.returncode)
"""
SLOW = """
import os, sys, time
if any(name.startswith(".new-") for name in os.listdir(os.path.dirname(sys.argv[1]))):
    above = os.getppid()
    for _ in range(6000):
        if os.getppid() != above:
            break
        time.sleep(0.1)
"""
AT_ONCE = """
import os, runpy, signal, sys, tempfile
make = getattr(tempfile, sys.argv[1])
def made(*words, **named):
    it = make(*words, **named)
    os.kill(os.getpid(), signal.SIGTERM)
    return it
setattr(tempfile, sys.argv[1], made)
del sys.argv[:2]
sys.path.insert(0, os.path.dirname(sys.argv[0]))
runpy.run_path(sys.argv[0], run_name="__main__")
"""


class Names(Disks):
    """What changes names: by link(II), unlink(II) and mkdir of section I."""

    def test_a_folder_that_cannot_be_made(self):
        """The folder that is asked for is named, and not the one that is made first beside its place."""
        image, out = self.new({"a": b"1"}, "--blocks", "100"), self.path("none/out")
        self.refused(f"{out}: No such file or directory", "get", image, "/", out)

    def names(self, image):
        return [" ".join(line.split()[1:3] + line.split()[-1:]) for line in self.done("list", image).splitlines()]

    def free(self, image):
        status, said = v6("check", image)
        self.assertEqual((status, self.done("check", image)), (0, ""))
        return said

    def test_inodes_by_their_numbers(self):
        """Each command takes #N for the file of inode N, and /#N for a name; a file that has lost its name gets one, and its links are
        counted anew."""
        image = self.new({"a": b"1" * 600, "d/x": b"2"}, "--blocks", "100")
        a, d = (next(line.split()[0] for line in self.done("list", image).splitlines() if line.endswith(path)) for path in (" /a", " /d"))
        data = bytearray(read(image))
        at = data.index(int(a).to_bytes(2, "little") + b"a".ljust(14, b"\0"))
        data[at : at + 2] = b"\0\0"
        write(image, bytes(data))
        self.done("ln", image, f"#{a}", "/found")
        self.assertCountEqual(self.names(image), ["drwxr-xr-x 3 /", "drwxr-xr-x 2 /d", "-rw-r--r-- 1 /d/x", "-rw-r--r-- 1 /found"])
        self.free(image)
        self.done("ln", image, f"#{a}", "/d/again")
        self.done("chmod", image, "600", f"#{a}")
        self.done("chown", image, "3", "4", f"#{d}/x")
        self.done("mkdir", image, f"#{d}/e", "/#7")
        self.done("put", image, self.put("one", b"3"), f"#{d}")
        self.done("mv", image, f"#{d}/x", f"#{d}/e/y")
        self.done("rm", image, "/found", f"#{d}/one")
        self.assertCountEqual(self.names(image), ["drwxr-xr-x 4 /", "drwxr-xr-x 2 /#7", "drwxr-xr-x 3 /d", "-rw------- 1 /d/again", "drwxr-xr-x 2 /d/e",
                                             "-rw-r--r-- 1 /d/e/y"])
        self.free(image)
        wanted = f"#{a}: an inode, where a name is wanted; /#{a} is a name"
        for words in ("rm", image, f"#{a}"), ("mv", image, f"#{a}", "/b"), ("mkdir", image, f"#{a}"), ("ln", image, f"#{a}", "/d"):
            self.refused(wanted, *words)
        self.refused("#99: no file has this inode", "ln", image, "#99", "/b")
        self.refused("/d: a directory can't go below itself", "mv", image, "/d", f"#{d}/e/z")
        self.assertEqual(self.done("cat", image, f"#{a}"), "1" * 600)

    def test_names(self):
        image = self.new({"a/x": b"12", "a/y": b"3", "b": b"4" * 5000}, "--blocks", "100")
        before = self.free(image)
        self.done("mkdir", image, "/c", "/c/d")
        self.done("ln", image, "/a/x", "/c/d")
        self.done("mv", image, "/b", "/c/d/e")
        self.assertEqual(self.names(image), ["drwxr-xr-x 4 /", "drwxr-xr-x 2 /a", "-rw-r--r-- 2 /a/x", "-rw-r--r-- 1 /a/y",
                                             "drwxr-xr-x 3 /c", "drwxr-xr-x 2 /c/d", "-rw-r--r-- 2 /c/d/x",
                                             "-rw-r--r-- 1 /c/d/e"])
        self.done("mv", image, "/c/d", "/a")
        self.done("mv", image, "/a/d/e", "/b")
        self.done("mv", image, "/a/y", "/a/x")
        self.assertEqual(self.done("cat", image, "/a/x", "/a/d/x"), "312")
        self.done("chmod", image, "4711", "/a/x", "/a")
        self.done("chown", image, "3", "4", "/a/x")
        self.assertIn("-rws--x--x   1   3   4         1  /a/x", self.done("list", image))
        self.free(image)
        self.done("rm", image, "-r", "/c", "/a/d")
        self.assertEqual(self.names(image), ["drwxr-xr-x 3 /", "drws--x--x 2 /a", "-rws--x--x 1 /a/x", "-rw-r--r-- 1 /b"])
        self.assertEqual(self.free(image).split()[1], str(int(before.split()[1]) - 1))
        self.assertEqual(int(self.free(image).split()[3]), int(before.split()[3]) + 1)
        self.done("put", image, self.put("new", b"5"), "/a/y")
        self.assertEqual(self.names(image)[3], "-rw-r--r-- 1 /a/y")

    def test_random_changes(self):
        """Files against a dictionary of their bytes, under any order of changes; each disk between them is without a fault."""
        for _ in range(6):
            image, files = self.new({}, "--blocks", "300", "--inodes", "64"), {}
            for directory in ("/d", "/e"):
                self.done("mkdir", image, directory)
            for _ in range(30):
                path = self.random.choice(("", "/d", "/e")) + "/" + self.random.choice("abc")
                other = self.random.choice(list(files) or [path])
                kind = self.random.choice(("put", "put", "rm", "mv", "ln", "grow"))
                if kind == "put":
                    data = self.random.randbytes(self.random.choice((0, 10, 600, 5000)))
                    names = [name for name in files if path in files and files[name] is files[path]]
                    files.update({name: [data] for name in [path]} if not names else {})
                    for name in names:
                        files[name][0] = data
                    self.done("put", image, self.put("file", data), path)
                elif kind == "rm" and files:
                    self.done("rm", image, other)
                    del files[other]
                elif kind == "mv" and files and files[other] is not files.get(path):
                    self.done("mv", image, other, path)
                    files[path] = files.pop(other)
                elif kind == "ln" and files and path not in files:
                    self.done("ln", image, other, path)
                    files[path] = files[other]
                elif kind == "grow":
                    volume = Volume(read(image))
                    self.done("grow", image, "--blocks", str(volume.fsize + 5), "--inodes", str(16 * volume.isize + 16))
                self.assertEqual(Survey(read(image)).report(), [])
            volume = Volume(read(image))
            for path, (data,) in files.items():
                self.assertEqual(volume.read(volume.inode(volume.find(path.encode()))), data)
            listed = [line.split()[-1] for line in self.done("list", image).splitlines()]
            self.assertEqual(sorted(listed), sorted(["/", "/d", "/e", *files]))

    def test_what_is_refused(self):
        image = self.new({"a/x": b"1", "a/d/y": b"2", "b": b"3"}, "--blocks", "100")
        before = read(image)
        for said, *words in (("/a: a directory that isn't empty; -r removes what is in it", "rm", image, "/a"),
                             ("/no: no such file on the disk", "rm", image, "/no"),
                             ("the root is a directory", "rm", image, "/"),
                             ("/a/.: a directory keeps its entries . and ..", "rm", image, "-r", "/a/."),
                             ("/b: there already", "mkdir", image, "/b"), ("/a/x: there already", "ln", image, "/b", "/a/x"),
                             ("/a: a directory has one name", "ln", image, "/a", "/c"),
                             ("/a: a directory can't go below itself", "mv", image, "/a", "/a/d"),
                             ("/a: a directory can't go below itself", "mv", image, "/a", "/a/d/z"),
                             ("/b and /b are one file", "mv", image, "/b", "/b"),
                             ("/b: there already", "mv", image, "/a", "/b"),
                             ("/b: not a directory", "mkdir", image, "/b/c")):
            self.refused(said, *words)
        self.assertEqual(read(image), before)

    def test_standard_streams(self):
        image = self.new({"a": b"\0\377\n"}, "--blocks", "100")
        tool_name = os.path.join(TOOLS, "disk.py")
        for words in (("get", image, "/a", "-"), ("get", image, "/a", "/dev/stdout"), ("cat", image, "/a")):
            done = subprocess.run([sys.executable, tool_name, "--v6", V6, *words], capture_output=True)
            self.assertEqual((done.returncode, done.stdout, done.stderr), (0, b"\0\377\n", b""), words)
        done = subprocess.run([sys.executable, tool_name, "--v6", V6, "put", image, "-", "/b"], input=b"typed",
                              capture_output=True)
        self.assertEqual((done.returncode, done.stderr, self.done("cat", image, "/b")), (0, b"", "typed"))
        reads, writes = os.pipe()
        os.close(reads)
        done = subprocess.run([sys.executable, tool_name, "--v6", V6, "list", image], stdout=writes, stderr=subprocess.PIPE)
        os.close(writes)
        self.assertEqual((done.returncode, done.stderr), (141, b""))

    def test_odd_names_and_files(self):
        """Names that begin with a minus, and devices of the host, which have no end or no bytes."""
        image, folder = self.new({}, "--blocks", "100"), self.folder_of({"-x": b"1"})
        self.done("put", image, folder + "/-x", "/")
        self.done("mv", image, "--", "-x", "-y")
        self.assertEqual(self.done("cat", image, "--", "-y"), "1")
        self.refused(f"/dev/zero: image: too long{TO_READ}", "list", "/dev/zero")
        self.refused("/dev/zero: a socket, a pipe or a device, and only files and folders can be put on a disk", "put", image,
                     "/dev/zero", "/z")
        self.refused(f"{folder}: Is a directory", "list", folder)
        self.assertEqual(self.disk("list", "/dev/null")[0], 1)

    def test_a_disk_that_changes(self):
        """What was written in between isn't lost."""
        image, file = self.new({"a": b"1"}, "--blocks", "100"), self.put("file", b"2")
        other = self.put("other.py", OTHER.encode())
        again = f"{sys.executable} {other} {image} {V6}"
        status, _, said = self.call(disk_main, "--v6", again, "put", image, file, "/b")
        self.assertEqual((status, said), (1, f"disk.py: {image}: it has changed since it was read\n"))
        self.assertEqual(read(image)[-7:], b"changed")

    def test_an_interrupt(self):
        """A tool that is ended by a signal leaves nothing beside the disk."""
        image, file = self.new({"a": b"1"}, "--blocks", "100"), self.put("file", b"2")
        slow = self.put("slow.py", SLOW.encode())
        before = sorted(os.listdir(self.folder))
        running = subprocess.Popen([sys.executable, "-S", os.path.join(TOOLS, "disk.py"), "--v6", f"{sys.executable} {slow} {file}",
                                    "put", image, file, "/b"], stderr=subprocess.PIPE)
        while running.poll() is None and not any(name.startswith(".new-") for name in os.listdir(self.folder)):
            time.sleep(0.01)
        running.terminate()
        self.assertEqual(running.communicate()[1], b"")
        self.assertEqual(running.returncode, 130)
        self.assertEqual(sorted(os.listdir(self.folder)), before)

    def test_an_interrupt_at_once(self):
        """Also where the signal comes before the tool knows how the file is called that was made beside the disk."""
        image, file = self.new({"a": b"1"}, "--blocks", "100"), self.put("file", b"2")
        before, out = sorted(os.listdir(self.folder)), self.path("out")
        for maker, words in (("mkstemp", ("put", image, file, "/b")), ("mkdtemp", ("get", image, "/", out))):
            done = subprocess.run([sys.executable, "-S", "-c", AT_ONCE, maker, os.path.join(TOOLS, "disk.py"), "--v6", V6, *words],
                                  capture_output=True)
            self.assertEqual((done.returncode, done.stderr, sorted(os.listdir(self.folder))), (130, b"", before), words)

    def test_second_names(self):
        """Of a folder with hard links, there and back."""
        top = self.folder_of({"a": b"1", "d/b": b"2"})
        os.link(top + "/a", top + "/d/c")
        image, table, back, again = (self.path(name) for name in ("image", "table", "back", "again"))
        self.done("new", image, top, "--blocks", "100")
        self.assertEqual(self.names(image), ["drwxr-xr-x 3 /", "-rw-r--r-- 2 /a", "drwxr-xr-x 2 /d", "-rw-r--r-- 1 /d/b",
                                             "-rw-r--r-- 2 /d/c"])
        self.done("get", image, "/", back, "--table", table)
        self.assertIn(b"/d/c = /a\n", read(table))
        self.assertEqual(os.stat(back + "/a").st_nlink, 2)
        os.remove(back + "/d/c")
        self.done("new", again, back, "--table", table)
        self.assertEqual(read(again), read(image))

    def test_the_same_disk(self):
        """Of what `get` gives of any disk, `new` makes one with the same files, times and links, which gives the same table."""
        image = self.new({"etc/init": b"x", "u/a": b"y" * 5000}, "--blocks", "300", "--inodes", "32", "--time", "70000")
        self.done("put", image, self.put("file", b"z"), "/u", "--time", "80000")
        self.done("ln", image, "/u/file", "/etc/init2", "--time", "90000")
        for disk, back, table in ((image, "one", "table1"), (self.path("again"), "two", "table2")):
            self.done("get", disk, "/", self.path(back), "--table", self.path(table))
            self.done("new", self.path("again"), self.path(back), "--table", self.path(table), "--replace")
        self.assertEqual(read(self.path("table1")), read(self.path("table2")))
        self.assertIn(b"/etc/init2 0644 0 0 times 80000 80000\n", read(self.path("table1")))
        self.assertEqual(v6("check", image), v6("check", self.path("again")))

    def work(self, count):
        """How many steps of Python a disk of so many files takes: calls, and the lines of loops."""
        files = {f"f{k}": b"x" * (k % 4 > 0) for k in range(count)}
        folder, image, steps = self.folder_of(files), self.path(f"image{count}"), 0

        def step(*_):
            nonlocal steps
            steps += 1
            return step

        before = sys.gettrace()
        sys.settrace(step)
        try:
            self.done("new", image, folder, "--inodes", "4096")
        finally:
            sys.settrace(before)
        self.assertEqual(v6("check", image)[1].split()[1], str(count + 1))
        return steps

    def test_many_files(self):
        """The time for a file doesn't grow with their number: four times as many take four times as many steps."""
        self.assertLess(self.work(1000), 5 * self.work(250))

    def test_grow(self):
        """Files stay as they are, also those whose blocks stood where the new inodes stand."""
        files = {"a": self.random.randbytes(9000), "b": self.random.randbytes(300), "c": b"",
                 "d/e": self.random.randbytes(1793 * 512)}
        image = self.new(files, "--blocks", "2000", "--inodes", "16")
        listed, free = self.done("list", image), int(self.free(image).split()[3])
        self.done("grow", image, "--blocks", "3000")
        self.assertEqual(int(self.free(image).split()[3]), free + 1000)
        self.done("grow", image, "--inodes", "400")
        self.assertEqual(int(self.free(image).split()[3]), free + 1000 - 24)
        self.assertEqual(self.done("list", image), listed)
        self.done("get", image, "/", self.path("back"))
        for name, data in files.items():
            self.assertEqual(read(self.path("back/" + name)), data)
        self.refused("it has 3000 blocks and 400 inodes, and can't become smaller", "grow", image, "--blocks", "2999")
        self.refused(f"at most 4000 blocks and 65535 inodes; {BESIDE}", "grow", image, "--blocks", "4001")
        self.refused("no room for 32000 inodes: 1824 blocks must move, and 998 are free", "grow", image, "--inodes", "32000")


class Archives(Disks):
    """The forms are those of ar(V) and tp(V), with bytes by hand."""

    AR = struct.pack("<H", 0o177555) + struct.pack("<8s2H2BH", b"one.s", 1, 2, 3, 0o244, 3) + b"abc\0" + \
        struct.pack("<8s2H2BH", b"eightbyt", 0, 5, 0, 0o244, 2) + b"de"

    def entry(self, *fields):
        """An entry of a tape: its 32 words come to 0 together."""
        words = struct.unpack("<32H", struct.pack("<32sH3BBHHHH16sH", *fields, b"", 0))
        return struct.pack("<32H", *words[:31], -sum(words) & 0xFFFF)

    def tape(self, directory):
        entries = self.entry(b"bin/x", 0o100755, 3, 4, 0, 0, 600, 1, 2, directory + 1)
        entries += self.entry(b"", 0, 0, 0, 0, 0, 0, 0, 0, 0) + self.entry(b"y", 0o100600, 0, 0, 0, 0, 1, 0, 7, directory + 3)
        return bytes(512) + entries.ljust(512 * directory, b"\0") + b"x" * 600 + bytes(424) + b"y" + bytes(511)

    def test_ar(self):
        image, archive = self.new({}, "--blocks", "100"), self.put("lib.a", self.AR)
        self.done("put", image, archive, "/lib", "--as", "ar")
        self.assertEqual(self.done("cat", image, "/lib/one.s", "/lib/eightbyt"), "abcde")
        inode = Volume(read(image)).inode(Volume(read(image)).find(b"/lib/one.s"))
        self.assertEqual((inode.changed, inode.owner, inode.mode), (65538, 3, 0o100644))
        self.done("get", image, "/lib", self.path("back.a"), "--as", "ar")
        members = self.AR[2:22], self.AR[22:]  # in the order of the directory, which is that of the names
        self.assertEqual(read(self.path("back.a")), self.AR[:2] + members[1] + members[0])
        for data, said in ((b"x", "no archive: it doesn't begin with 0177555"),
                           (self.AR[:10], "the archive ends in the middle of a header"),
                           (self.AR[:20], "the archive ends in the middle of one.s")):
            bad = self.put("bad", data)
            self.refused(f"{bad}: {said}", "put", image, bad, "/x", "--as", "ar")
        self.refused("nine.byte: an archive has names of 8 bytes and files of 65535", "get",
                     self.new({"nine.byte": b""}, "--blocks", "100"), "/", "-", "--as", "ar")

    def test_tp(self):
        for directory in (24, 62):
            image, tape = self.new({}, "--blocks", "100"), self.put("tape", self.tape(directory))
            self.done("put", image, tape, "/", "--as", "tp")
            self.assertEqual(self.done("cat", image, "/bin/x", "/y"), "x" * 600 + "y")
            inode = Volume(read(image)).inode(Volume(read(image)).find(b"/bin/x"))
            self.assertEqual((inode.changed, inode.owner, inode.group, inode.mode), (65538, 3, 4, 0o100755))
        bad = self.put("bad", b"x" * 2000)
        self.refused(f"{bad}: no tape of tp(I): its directory isn't one", "put", image, bad, "/x", "--as", "tp")
        bad = self.put("bad", self.tape(24)[: 512 * 26])
        self.refused(f"{bad}: the tape ends in the middle of bin/x", "put", image, bad, "/x", "--as", "tp")

    def test_simh(self):
        image, tape = self.new({}, "--blocks", "100"), self.tape(62)
        records = [tape[at : at + 512] for at in range(0, len(tape), 512)]
        data = b"".join(struct.pack("<I", 512) + record + struct.pack("<I", 512) for record in records) + bytes(8)
        self.done("put", image, self.put("t.tap", data), "/", "--as", "tap")
        self.done("get", image, "/", self.path("back"), "--as", "tap")
        other = self.new({}, "--blocks", "100")
        self.done("put", other, self.path("back"), "/", "--as", "tap")
        self.assertEqual(self.done("list", other, "-l"), self.done("list", image, "-l"))
        self.assertEqual(self.done("cat", other, "/bin/x", "/y"), "x" * 600 + "y")
        self.done("get", image, "/", self.path("tp"), "--as", "tp")
        self.assertEqual(read(self.path("tp"))[512 * 63 :], tape[512 * 63 :])
