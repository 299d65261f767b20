"""Disks: those of the generator, random folders there and back, what is refused, and what odd disks come to."""
import os
import socket
import struct
from dataclasses import replace as replaced
from unittest import mock

from tests.common import DISK_BYTES, read, tool, v6, write
from tests.disk.disks import BESIDE, TO_READ, Disks, disk_main

from v6.disk.volume import DiskError, Volume
from v6.host.files import replace

as_main = tool("as").main
ROUNDS = int(os.environ.get("ROUNDS", 60))
TABLE = "# the devices\n/dev/tty8 0666 0 0 c 0 0\n/dev/null 0666 0 0 c 8 2\n/tmp/ 0777 3 4\n"

MAKES = """
	sys	creat; a; 644
	sys	write; text; 2
	sys	link; a; b
	sys	mknod; d; 40777; 0
	sys	link; a; c
	sys	unlink; a
	sys	creat; big; 640
	mov	r0,r4
	mov	$20.,r5
1:	mov	r4,r0
	sys	write; 0; 512.
	sob	r5,1b
	clr	r0
	sys	exit
a:	<a\\0>
b:	<b\\0>
c:	<d/c\\0>
d:	<d\\0>
big:	<big\\0>
text:	<hi>
	.bss
	.=.+512.
"""
EMPTIES = """
	sys	creat; name; 644
	clr	r0
	sys	exit
name:	</large\\0>
"""
UNKEPT = "disk.py: {} not in the folder: remove it and take it again with --table FILE, which keeps that\n"


def generated(n, k):
    """The bytes of the file k of the disk that `v6 make n` writes, by docs/manual/generator.md."""
    return bytes((n + k + i) % 256 for i in range((331 * (k + 1) + 97 * n) % 3000))


class Generator(Disks):
    def test_every_file(self):
        for n in (12, 99):
            image, out, table = self.path(f"made{n}"), self.path(f"out{n}"), self.path("table")
            self.assertEqual(v6("make", str(n), image)[0], 0)
            self.done("get", image, "/", out, "--table", table)
            self.assertEqual(sorted(os.listdir(out)), ["dev", "etc", "u"])
            self.assertEqual(sorted(os.listdir(out + "/u")), [f"f{k:02}" for k in range(n)])
            for k in range(n):
                self.assertEqual(read(f"{out}/u/f{k:02}"), generated(n, k))
            rows = "disk 4000 960 0\n/ 0755 0 0\n/etc/ 0755 0 0\n/etc/init 0755 0 0\n/dev/ 0755 0 0\n/dev/tty8 0666 0 0 c 0 0\n"
            rows += "/dev/null 0666 0 0 c 8 2\n/u/ 0755 0 0\n" + "".join(f"/u/f{k:02} 0644 0 0\n" for k in range(n))
            self.assertEqual(read(table).decode(), rows)

    def test_list(self):
        image = self.path("made")
        v6("make", "2", image)
        self.assertEqual(self.done("list", image), """\
    1  drwxr-xr-x   5   0   0        80  /
    2  drwxr-xr-x   2   0   0        48  /etc
    7  -rwxr-xr-x   1   0   0       126  /etc/init
    3  drwxr-xr-x   2   0   0        64  /dev
    5  crw-rw-rw-   1   0   0       0,0  /dev/tty8
    6  crw-rw-rw-   1   0   0       8,2  /dev/null
    4  drwxr-xr-x   2   0   0        64  /u
    8  -rw-r--r--   1   0   0       525  /u/f00
    9  -rw-r--r--   1   0   0       856  /u/f01
""")
        self.assertEqual(self.done("list", image, "u/f01"), "    9  -rw-r--r--   1   0   0       856  /u/f01\n")
        self.refused("/u/f02: no such file on the disk", "list", image, "/u/f02")
        self.refused("/u/f01: not a directory", "list", image, "/u/f01/x")

    def test_put(self):
        """19 used inodes and 3891 free blocks, of which 109 is the next."""
        image, file = self.path("made"), self.put("file", bytes(5000))
        v6("make", "12", image)
        self.done("put", image, file, "/u/new")
        self.assertEqual(v6("check", image), (0, "ok 20 nodes 3880 free\n"))  # ten blocks and one that is indirect
        self.assertEqual(Volume(read(image)).inode(20).addresses, [117] + [0] * 7)
        self.done("put", image, self.put("f00", b"short"), "/u", "--time", "70000")
        self.assertEqual([getattr(Volume(read(image)).inode(8), time) for time in ("accessed", "changed")], [70000, 70000])
        self.assertEqual(v6("check", image), (0, "ok 20 nodes 3882 free\n"))  # one block in the place of three
        self.done("get", image, "/u/f00", self.path("back"))
        self.assertEqual(read(self.path("back")), b"short")
        self.done("get", image, "/u/f11", self.path("back"))
        self.assertEqual(read(self.path("back")), generated(12, 11))

    def test_blocks_are_cleared(self):
        """A large file takes the blocks that another has given back, with what that had in them. The ninth that it takes is
        indirect, first 117. It is given back last, so it is taken first: for a small file, and then before 109 to 116."""
        image, data = self.path("made"), [self.random.randbytes(9000) for _ in range(2)]
        v6("make", "12", image)
        for piece, block in ((data[0], 117), (b"short", 117), (data[1], 116)):
            self.done("put", image, self.put("file", piece), "/u/x")
            self.assertEqual(Volume(read(image)).inode(20).addresses[0], block)
        self.assertEqual(v6("check", image), (0, f"ok 20 nodes {3891 - 19} free\n"))
        self.done("get", image, "/u/x", self.path("back"))
        self.assertEqual(read(self.path("back")), data[1])

    def test_the_free_list(self):
        """A new disk has the list of the generator's: it begins at block 3999 too."""
        made, new = self.path("made"), self.new({})
        v6("make", "12", made)
        self.assertEqual(read(new)[300 * 512 :], read(made)[300 * 512 :])


class Folders(Disks):
    def random_name(self):
        letters = self.random.choice((b"abcxyz", b"AZaz09._-~", bytes(b for b in range(1, 256) if b != 0o57)))
        name = bytes(self.random.choice(letters) for _ in range(self.random.choice((1, 2, 3, 14))))
        return name if name not in (b".", b"..") else b"dots"

    def random_folder(self, top, depth=0):
        os.mkdir(top)
        for _ in range(self.random.choice((0, 1, 3, 6, 40 if depth == 1 else 5))):
            name = os.path.join(top, self.random_name())
            if os.path.lexists(name):
                continue
            if depth < 3 and self.random.random() < 0.3:
                self.random_folder(name, depth + 1)
            else:
                size = self.random.choice((0, 1, 511, 512, 513, 4096, 4097, self.random.randrange(9000)))
                write(name, self.random.randbytes(size))
                os.chmod(name, self.random.choice((0o644, 0o755)))

    def contents(self, top):
        """What is in a folder: by its path, the bytes and the execute bit of a file, or None of a folder."""
        found = {}
        for folder, folders, files in os.walk(top):
            for name in folders:
                found[os.path.relpath(os.path.join(folder, name), top)] = None
            for name in files:
                path = os.path.join(folder, name)
                found[os.path.relpath(path, top)] = read(path), os.stat(path).st_mode & 0o111
        return found

    def test_there_and_back(self):
        for count in range(ROUNDS):
            top, image, back = (os.fsencode(self.path(f"{name}{count}")) for name in ("from", "image", "back"))
            self.random_folder(top)
            table = self.path("table")
            self.done("new", "--blocks", "900", os.fsdecode(image), os.fsdecode(top))
            self.done("get", os.fsdecode(image), "/", os.fsdecode(back), "--table", table)
            self.assertEqual(self.contents(top), self.contents(back))
            again = self.path("again")
            self.done("new", "--blocks", "900", "--table", table, "--replace", again, os.fsdecode(back))
            self.assertEqual(read(image), read(again))

    def test_giving_back(self):
        """What another file has given back is taken in the order of docs/manual/inodes.md: that of `Ind 0` last, so it is
        the first. Of the file it was the ninth that was taken."""
        image = self.new({"file": bytes(1793 * 512)})
        first = Volume(read(image)).inode(2)
        volume = Volume(read(image))
        data, table = volume.words(first.addresses[0])[0], first.addresses[0]
        self.assertEqual(table, data + 8)
        self.done("put", image, self.put("small", bytes(3 * 512)), "/file")
        self.assertEqual(Volume(read(image)).inode(2).addresses[:3], [table, data, data + 1])

    def test_large_files(self):
        """On both sides of each kind of address: docs/manual/disk-image.md."""
        sizes = {"a": 8 * 512, "b": 8 * 512 + 1, "c": 256 * 512, "d": 256 * 512 + 1, "e": 1792 * 512, "f": 1793 * 512}
        for name, size in sizes.items():
            data = self.random.randbytes(size)
            image = self.new({"file": data})
            blocks = -(-size // 512)
            held = blocks + (blocks > 8) * -(-blocks // 256) + (blocks > 1792)
            self.assertEqual(v6("check", image), (0, f"ok 2 nodes {4000 - 62 - 1 - held} free\n"), name)
            self.done("get", image, "/file", self.path("back"))
            self.assertEqual(read(self.path("back")), data)

    def test_table(self):
        table = self.put("table", TABLE.encode())
        image = self.new({"etc/init": b"x", "a b": b""}, "--table", table, "--time", "65537", "--blocks", "200")
        self.assertEqual(self.done("list", image), """\
    1  drwxr-xr-x   5   0   0        96  /
    2  -rw-r--r--   1   0   0         0  /a b
    3  drwxr-xr-x   2   0   0        64  /dev
    6  crw-rw-rw-   1   0   0       8,2  /dev/null
    7  crw-rw-rw-   1   0   0       0,0  /dev/tty8
    4  drwxr-xr-x   2   0   0        48  /etc
    8  -rw-r--r--   1   0   0         1  /etc/init
    5  drwxrwxrwx   2   3   4        32  /tmp
""")
        volume = Volume(read(image))
        self.assertEqual((volume.time, volume.inode(8).changed, len(read(image))), (65537, 65537, 200 * 512))
        self.assertEqual(self.disk("get", image, "/", self.path("folder")),
                         (0, "", UNKEPT.format("2 devices, and modes, owners or times of 1 file are")))
        self.done("get", image, "/", self.path("back"), "--table", self.path("table2"))
        self.assertIn("/a\\040b 0644 0 0\n", read(self.path("table2")).decode())

    def test_short(self):
        files = {"bin/x": bytes(1000)}
        long, short = read(self.new(files, "--blocks", "100")), read(self.new(files, "--blocks", "100", "--short"))
        self.assertEqual((short.ljust(len(long), b"\0"), len(short) % 512), (long, 0))
        self.assertLess(len(short), len(long))

    def test_folder_onto_a_disk(self):
        image = self.new({"a/x": b"1", "a/y": b"2"}, "--blocks", "200")
        more = self.path("more")
        os.makedirs(more + "/b")
        write(more + "/x", b"new")
        write(more + "/b/z", b"3")
        self.done("put", image, more, "/a")
        self.done("get", image, "/", self.path("back"))
        self.assertEqual(self.contents(self.path("back")), {"a": None, "a/x": (b"new", 0), "a/y": (b"2", 0), "a/b": None,
                                                            "a/b/z": (b"3", 0)})


class Refusals(Disks):
    def test_damaged_disks(self):
        image = self.path("made")
        v6("make", "3", image)
        data, out = bytearray(read(image)), self.path("out")
        for at, value, fault in ((514, 4001, "file system of 4001 blocks leaves no swap"), (512, 0, "bad super-block"),
                                 (1024, 0o100755, "no root"), (1024 + 32 * 7 + 8, 62, "block 62 twice"),
                                 (1024 + 32 * 7 + 8, 4000, "inode 8 has block 4000 outside")):
            bad = self.put("bad", data[:at] + struct.pack("<H", value) + data[at + 2 :])
            before = read(bad)
            if value != 4001:  # a pack without swap can be read, see below
                self.refused(f"{bad}: image: {fault}{TO_READ}", "list", bad)
                self.refused(f"{bad}: image: {fault}{TO_READ}", "get", bad, "/", out)
            self.refused(f"{bad}: image: {fault}" + f"; {BESIDE}" * (value == 4001), "put", bad, image, "/x")
            self.assertEqual((read(bad), os.path.exists(out)), (before, False))

    def test_what_no_disk_can_hold(self):
        image = self.new({"a": b"1"}, "--blocks", "80")
        before, top = read(image), self.path("odd")
        os.mkdir(top)
        link, pipe = top + "/link", top + "/pipe"
        os.symlink("a", link)
        self.refused(f"{link}: a symbolic link, and only files and folders can be put on a disk", "put", image, link, "/x")
        os.remove(link)
        with socket.socket(socket.AF_UNIX) as one:
            one.bind(pipe)
            self.refused(f"{pipe}: a socket, a pipe or a device, and only files and folders can be put on a disk",
                         "put", image, top, "/x")
        os.remove(pipe)
        large = top + "/large"
        with open(large, "wb") as file:
            file.truncate(2**24)
        self.refused(f"{large}: 16777216 bytes are too many for a file: at most 16777215", "put", image, top, "/x")
        write(large, bytes(2**24 - 1))
        self.refused("/x/large: no room for 16777215 bytes: they need 32897 blocks, and 15 are free",
                     "put", image, top, "/x")
        write(large, bytes(15 * 512))
        self.refused("/x/large: no room for 7680 bytes: they need 16 blocks, and 15 are free", "put", image, top, "/x")
        os.remove(large)
        write(top + "/fifteen.bytes.x", b"")
        self.refused("/x/fifteen.bytes.x: the name has 15 bytes, and a directory keeps 14", "put", image, top, "/x")
        self.assertEqual(read(image), before)

    def test_full_disks(self):
        files = {f"{k:02}": b"" for k in range(15)}
        image = self.new(files, "--blocks", "20", "--inodes", "16")
        before, file = read(image), self.put("file", b"x")
        self.refused("/more: no inode is free: the disk has 16", "put", image, file, "/more")
        for blocks, inodes, needs in (("4001", "16", 4), ("3", "16", 4), ("100", "0", 4), ("100", "3200", 203)):
            self.refused(f"a disk of {blocks} blocks and {inodes} inodes can't be made: these inodes and a root need {needs} "
                         "blocks, and there are at most 4000" + f"; {BESIDE}" * (blocks == "4001"),
                         "new", self.path("x"), self.path("from"), "--blocks", blocks, "--inodes", inodes)
        image = self.new({}, "--blocks", "4", "--inodes", "16")
        self.done("put", image, self.put("empty", b""), "/a")
        self.refused("/b: no room for 1 byte: it needs 1 block, and 0 are free", "put", image, file, "/b")
        os.makedirs(self.path("from/d"), exist_ok=True)
        self.refused("/d: no block is free", "put", image, self.path("from/d"), "/d")

    def test_paths(self):
        image, file = self.new({"a/x": b"1"}, "--blocks", "100"), self.put("file", b"x")
        self.refused("/b: no such file on the disk", "put", image, file, "/b/c")
        self.refused("fifteen.bytes.x: the name has 15 bytes, and a directory keeps 14",
                     "get", image, "/fifteen.bytes.x", file)
        self.refused("/a/x: not a directory", "put", image, file, "/a/x/y")
        self.refused("/a/x: the disk has something else under this name", "put", image, self.path("from"), "/a/x")
        self.refused(f"{self.path('absent')}: No such file or directory", "put", image, self.path("absent"), "/b")
        self.refused(f"{self.path('absent')}: No such file or directory", "list", self.path("absent"))
        self.refused("'': No such file or directory", "put", image, "", "/b")
        self.refused(f"{image}: there already; --replace makes it anew", "new", image, self.path("from"))
        self.refused(f"{file}: there already, and a folder is to be made", "get", image, "/", file)
        status, _, error = self.call(disk_main, "--v6", self.path("nov6"), "list", image)
        self.assertEqual((status, error), (1, f"disk.py: {self.path('nov6')}: No such file or directory: the program v6 is "
                                              "wanted; --v6 names it\n"))

    def test_replacing(self):
        """A file stays as it is where what is to come in its place is refused, and nothing is left beside it."""
        def look(name):
            self.assertEqual(read(name), b"after")
            raise DiskError("no")

        file = self.put("file", b"before")
        with self.assertRaisesRegex(DiskError, "no"):
            replace(file, b"after", look=look)
        self.assertEqual((read(file), os.listdir(self.folder)), (b"before", ["file"]))

    def test_what_is_no_file(self):
        """A device, as /dev/null, is not made a file, also not for user 0, who could; nor is a pipe."""
        image, pipe = self.new({"a": b"1"}, "--blocks", "100"), self.path("pipe")
        os.mkfifo(pipe)
        self.refused(f"{pipe}: not a file, and only a file is replaced", "get", image, "/a", pipe)
        self.assertFalse(os.path.isfile(pipe))
        self.refused(f"{self.path('no')}/a: No such file or directory", "get", image, "/a", self.path("no") + "/a")

    def test_what_cannot_be_written(self):
        image, before, allowed = self.new({"a": b"1"}, "--blocks", "100"), read(self.path("image")), os.access
        with mock.patch("os.access", lambda place, mode: place != os.path.realpath(image) and allowed(place, mode)):
            self.refused(f"{image}: Permission denied", "put", image, self.put("file", b"2"), "/b")
        self.assertEqual(read(image), before)

    def test_a_table_that_cannot_be_written(self):
        """Then the folder and the file aren't made either."""
        image, table = self.new({"d/a": b"1"}, "--blocks", "100"), self.path("no") + "/table"
        for path in ("/d", "/d/a"):
            self.refused(f"{table}: No such file or directory", "get", image, path, self.path("out"), "--table", table)
            self.assertEqual(sorted(os.listdir(self.folder)), ["from", "image"])

    def test_a_deep_folder(self):
        deep, image = self.path("deep"), self.path("image")
        os.makedirs(deep + "/d" * 600)
        self.done("new", image, deep)
        self.assertEqual(v6("check", image)[1].split()[:3], ["ok", "601", "nodes"])

    def test_tables(self):
        top = self.folder_of({"etc/init": b""})
        for line, said in (("/etc/init", "PATH MODE, PATH MODE OWNER GROUP, or these and c or b MAJOR MINOR is wanted"),
                           ("/etc/init 0999", "'0999': no mode: four octal digits, at most 7777"),
                           ("/etc/init 0644 256 0", "'256': no owner or group: 0 to 255"),
                           ("/dev/x 0644 0 0 p 0 0", "'p': a device is c or b"),
                           ("/etc/init 0644 0 0 times 1",
                            "PATH MODE, PATH MODE OWNER GROUP, or these and c or b MAJOR MINOR is wanted"),
                           ("/etc/init 0644 0 0 times 1 x", "'x': no time: 0 to 4294967295 seconds"),
                           ("/etc/init 0644 0 0 holes 3-x", "'x': no number of a block: 0 to 32767"),
                           ("/a = /nosuch", "'/nosuch': no file that can have a second name"),
                           ("disk 1 2 x", "'x': no size or time"),
                           ("/dev/x 0644 0 0 c 0 -1", "'-1': no number of a device: 0 to 255"),
                           ("/etc/passwd 0644", "the folder has no such file; the path of a directory ends with a slash"),
                           ("/etc/init/x 0644 0 0 c 0 0", "init: not a directory"),
                           ("/etc/init/ 0755", "the folder has something else under this name")):
            table = self.put("table", b"# one line before\n" + line.encode() + b"\n")
            self.refused(f"{table}: line 2: {said}", "new", self.path("none"), top, "--table", table)
        self.assertFalse(os.path.exists(self.path("none")))


class Finals(Disks):
    def test_a_run(self):
        """A first program makes, links and removes files; numbers and entries go by docs/manual/inodes.md and names.md."""
        program = self.path("init")
        self.assertEqual(self.call(as_main, "-o", program, self.put("init.s", MAKES.encode())), (0, "", ""))
        folder = self.folder_of({"etc/init": read(program)})
        os.chmod(folder + "/etc/init", 0o755)
        image = self.path("image")
        self.done("new", image, folder, "--blocks", "100", "--inodes", "16")
        final, script = self.path("final"), self.put("script", b"run 200\n")
        status, said = v6("run", image, "1200", script, self.path("term"), self.path("log"), final)
        self.assertEqual((status, said), (0, ""))
        self.assertEqual(len(read(final)), DISK_BYTES)
        size = len(read(program))
        self.assertEqual(self.done("list", final), f"""\
    1  drwxr-xr-x   3   0   0        96  /
    2  drwxr-xr-x   2   0   0        48  /etc
    3  -rwxr-xr-x   1   0   0 {size:9}  /etc/init
   14  -rw-r-----   1   0   0     10240  /big
   16  -rw-r--r--   2   0   0         2  /b
   15  drwxrwxrwx   1   0   0        16  /d
   16  -rw-r--r--   2   0   0         2  /d/c
""")
        self.assertEqual(self.disk("get", final, "/", self.path("back")), (0, "", UNKEPT.format("modes, owners or times of 2 files are")))
        self.assertEqual(os.stat(self.path("back/b")).st_ino, os.stat(self.path("back/d/c")).st_ino)
        self.assertEqual(read(self.path("back/d/c")), b"hi")
        self.assertEqual(read(self.path("back/big")), read(program)[16:].ljust(512, b"\0") * 20)

    def test_giving_back(self):
        """A first program empties a file with all kinds of blocks; the tool gives them back in the same order."""
        program = self.path("init")
        self.assertEqual(self.call(as_main, "-o", program, self.put("init.s", EMPTIES.encode())), (0, "", ""))
        image, final = self.new({"etc/init": read(program), "large": bytes(1793 * 512)}), self.path("final")
        volume = Volume(read(image))
        volume.set_inode(volume.find(b"/etc/init"), replaced(volume.inode(volume.find(b"/etc/init")), mode=0o100755))
        write(image, volume.image())
        script = self.put("script", b"run 100\n")
        self.assertEqual(v6("run", image, "1200", script, self.path("term"), self.path("log"), final), (0, ""))
        self.done("put", image, self.put("empty", b""), "/large")
        self.assertEqual(Volume(read(final)).inode(3).size, 0)
        self.assertEqual(Volume(read(image)).free_blocks(), Volume(read(final)).free_blocks())


class OddDisks(Disks):
    """What `v6 check` accepts and no tool writes."""

    def test_odd_entries(self):
        image = self.new({"a/b": b"1", "c": b"2", "d/e": b"3"}, "--blocks", "100")
        volume = Volume(read(image))
        root = volume.inode(1)
        entries = struct.pack("<H14sH14sH14sH14s", 50, b"free", volume.find(b"/c"), b"../x",
                              volume.find(b"/a"), b"again", volume.find(b"/c"), b"c")
        volume.change(root.addresses[0], root.size, entries)
        root.size += len(entries)
        volume.set_inode(1, root)
        write(image, volume.image())
        self.assertEqual(self.disk("get", image, "/", self.path("back")), (0, "", """\
disk.py: /free: passed over: its inode 50 is free
disk.py: /../x: passed over: no name for a file: it is empty, or has a slash or a NUL
disk.py: /again: passed over: a directory under a second name
disk.py: /c: passed over: the name comes twice in its directory
"""))
        self.assertEqual(sorted(os.listdir(self.path("back"))), ["a", "c", "d"])
        listed = self.done("list", image)
        self.assertIn("   50  ?                                   /free\n", listed)
        self.assertEqual([path for path in listed.split() if path.endswith("/b")], ["/a/b"])

    def test_a_name_whose_inode_is_free(self):
        """Its entry is the new file's: a second one of the name would never be found."""
        image = self.new({"a": b"1", "b": b"2"}, "--blocks", "100")
        volume = Volume(read(image))
        volume.change(volume.inode(1).addresses[0], 2 * 16, struct.pack("<H", 50))
        write(image, volume.image())
        self.done("put", image, self.put("file", b"4"), "/a")
        self.done("get", image, "/a", self.path("back"))
        self.assertEqual((read(self.path("back")), Volume(read(image)).inode(1).size), (b"4", 4 * 16))

    def test_a_directory_behind_a_name_that_is_free(self):
        image = self.new({"a": b"1", "d/x": b"2"}, "--blocks", "100")
        volume = Volume(read(image))
        volume.change(volume.inode(1).addresses[0], 2 * 16, struct.pack("<H14s", 50, b"d"))
        write(image, volume.image())
        self.assertEqual(self.disk("get", image, "/", self.path("back")),
                         (0, "", "disk.py: /d: passed over: its inode 50 is free\n"))
        self.assertEqual(read(self.path("back/d/x")), b"2")

    def test_an_empty_entry(self):
        """A new name goes into the first entry that is empty: docs/manual/names.md."""
        image = self.new({"a": b"1", "b": b"2", "c": b"3"}, "--blocks", "100")
        volume = Volume(read(image))
        volume.change(volume.inode(1).addresses[0], 3 * 16, b"\0\0")
        write(image, volume.image())
        self.done("put", image, self.put("file", b"4"), "/d")
        self.assertEqual([line.split()[-1] for line in self.done("list", image).splitlines()], ["/", "/a", "/d", "/c"])
        self.assertEqual(Volume(read(image)).inode(1).size, 5 * 16)

    def test_holes(self):
        """They stay holes, both ways: in the host's file where its blocks are so large, and in the table exactly."""
        image = self.new({"a": bytes(range(256)) * 40}, "--blocks", "100")
        volume = Volume(read(image))
        inode = volume.inode(2)
        table = inode.addresses[0]
        lost = volume.words(table)[1]
        volume.change(table, 2, b"\0\0")
        volume.give(lost)
        write(image, volume.image())
        rows = self.path("rows")
        self.done("get", image, "/a", self.path("back"), "--table", rows)
        wanted = bytes(range(256)) * 40
        self.assertEqual(read(self.path("back")), wanted[:512] + bytes(512) + wanted[1024:])
        self.assertEqual(read(rows), b"disk 100 960 0\n/a 0644 0 0 holes 1\n")
        again = self.path("again")
        os.mkdir(self.path("b"))
        write(self.path("b/a"), read(self.path("back")))
        self.done("new", again, self.path("b"), "--table", rows)
        self.assertEqual((Volume(read(again)).holes(Volume(read(again)).inode(2)), v6("check", again)[1]),
                         ([1], v6("check", image)[1]))

    def test_a_file_with_a_large_hole(self):
        """1.5 MB of which the disk holds four blocks: it goes home and comes back."""
        image, sparse = self.new({}, "--blocks", "100"), self.path("sparse")
        with open(sparse, "wb") as file:
            file.seek(1500000)
            file.write(b"end")
        self.done("put", image, sparse, "/a")
        self.assertEqual(Volume(read(image)).read(Volume(read(image)).inode(2)), bytes(1500000) + b"end")
        before = v6("check", image)[1]
        self.done("get", image, "/a", self.path("back"))
        self.assertEqual(read(self.path("back")), read(sparse))
        self.assertLess(os.stat(self.path("back")).st_blocks, 100)
        self.done("put", image, self.path("back"), "/a")
        self.assertEqual(v6("check", image)[1], before)
        self.assertLess(int(before.split()[1]) + 25, 100)
