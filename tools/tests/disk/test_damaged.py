"""Disks with faults: what is told of them, read from them and made of them."""
import os
import shlex
import struct
import subprocess

from tests.common import TOP, V6, read, v6
from tests.disk.disks import BESIDE, DOUBTFUL, TO_READ, Disks

from v6.disk.survey import Survey
from v6.disk.volume import Volume


class Hurt(Disks):
    """A disk with faults."""

    def hurt(self, *changes):
        """A disk of three files of two blocks, with words changed: its data begin at block 3 with the root's, and the files
        hold 4 and 5, 6 and 7, 8 and 9; their inodes are 2, 3 and 4."""
        self.new({name: name.encode() * 1024 for name in "abc"}, "--blocks", "20", "--inodes", "16")
        data = bytearray(read(self.path("image")))
        for at, value in changes:
            data[at : at + 2] = struct.pack("<H", value)
        return self.put("bad", data)

    def told(self, bad, *lines):
        status, out, error = self.disk("check", bad)
        self.assertEqual((status, out, error), (int(bool(lines)), "".join(f"{bad}: {line}\n" for line in lines), ""))

    def address(self, inode, n):
        return 1024 + 32 * (inode - 1) + 8 + 2 * n


class Damaged(Hurt):
    """Disks with faults; what `check` tells is by hand."""

    def test_good(self):
        self.told(self.hurt())

    def test_the_page(self):
        """The commands of docs/tools/disk.md on damaged disks come to what stands there, and the file is the generator's."""
        page = read(os.path.join(TOP, "docs", "tools", "disk.md")).decode().split("## Damaged disks")[1].split("```\n")[1]
        for name in ("bin", "tools"):
            os.symlink(os.path.join(TOP, name), self.path(name))
        lines = page.split("\n")
        commands = [line[2:] for line in lines if line.startswith("$ ")]
        script = "".join(f"printf '$ %s\\n' {shlex.quote(line)}\n{line} || :\n" for line in commands)
        done = subprocess.run(["sh", "-c", script], cwd=self.folder, stdout=subprocess.PIPE, stderr=subprocess.STDOUT, text=True,
                              env={**os.environ, "V6": V6})
        self.assertEqual(done.stdout, page)
        self.assertEqual(len(read(self.path("f00"))), 525)

    def test_all_faults(self):
        bad = self.hurt((self.address(2, 1), 21), (self.address(3, 0), 8), (512 + 6 + 2, 4), (1024 + 32 * 3 + 2, 7))
        self.told(bad, "/a: block 21 outside", "block 4 twice: /a and the free list", "block 8 twice: /b and /c",
                  "/c: 7 links, and 1 entry", "3 blocks are neither free nor of a file, from 5 on",
                  "v6 refuses it: image: inode 2 has block 21 outside",
                  "21 is address 1 of inode 2, at byte 1066 in block 2: /a", "data blocks are 3 to 19")

    def test_an_image_that_ends_too_early(self):
        """/b holds the blocks 6 and 7, /c 8 and 9: the image ends within block 7. `v6` takes what is missing for zeros."""
        bad, good = self.put("cut", read(self.hurt())[: 7 * 512 + 100]), self.path("good")
        self.assertEqual(v6("check", bad)[0], 0)
        self.told(bad, "the image ends at byte 3684, before what its files hold", "/b: block 7 past that end",
                  "/c: block 8, 9 past that end")
        refused = f"{bad}: it ends at byte 3684, before what its files hold{TO_READ}"
        self.refused(refused, "cat", bad, "/a")
        self.refused(refused, "put", bad, bad, "/d")
        self.assertEqual(self.done("cat", "--damaged", bad, "/a"), "a" * 1024)
        self.assertEqual(self.disk("repair", bad, good),
                         (0, f"{bad}: lost: /b: not whole\n{bad}: lost: /c: not whole\n{good}: 2 files and directories, 2 lost\n", ""))
        self.told(good)
        within = self.put("within", read(self.hurt())[:1060])
        self.assertIn("the image ends at byte 1060, before what its files hold\n", self.disk("check", within)[1])
        self.refused(refused.replace(bad, within).replace("3684", "1060"), "list", within)

    def test_a_short_disk_has_all_that_its_files_hold(self):
        """Blocks of zeros at its end are there: else it would count as cut."""
        self.new({"a": b"a", "z": bytes(2000)}, "--blocks", "20", "--inodes", "16", "--short")
        self.told(self.path("image"))
        self.assertEqual(self.done("cat", self.path("image"), "/z"), "\0" * 2000)

    def test_a_device_that_cannot_be(self):
        """An inode of bytes 0377 has the mode of a device, with the marks of a large file."""
        bad, good = self.hurt(*((1024 + 32 + 2 * n, 0xFFFF) for n in range(16))), self.path("good")
        line = "/a: a device with the bit of a large file and a size of 16777215 and blocks"
        self.assertIn(f"{bad}: {line}\n", self.disk("check", bad)[1])
        self.assertEqual(self.disk("repair", bad, good),
                         (0, f"{bad}: lost: /a: not whole\n{good}: 3 files and directories, 1 lost\n", ""))
        self.told(good)

    def test_the_size_of_the_file_system_stays(self):
        """Where the blocks of inodes alone are spoiled, the good disk is as large as the damaged one."""
        bad, good = self.hurt((512, 0)), self.path("good")
        self.done("repair", bad, good)
        self.assertEqual(struct.unpack("<H", read(good)[514:516]), (20,))

    def test_names(self):
        root = 3 * 512
        bad = self.hurt((root + 2 * 16, 0), (root + 3 * 16, 9))
        self.told(bad, "/b: its inode 9 is free", "inode 2 has no name: a file of 1024 bytes",
                  "inode 3 has no name: a file of 1024 bytes")
        listed = self.done("list", "--damaged", bad)
        self.assertIn("    2  -rw-r--r--   1   0   0      1024  #2\n", listed)
        self.assertEqual(self.done("cat", "--damaged", bad, "#2"), "a" * 1024)
        good = self.path("good")
        self.assertEqual(self.disk("repair", bad, good), (0, f"{bad}: lost: /b: its inode 9 is free\n"
                                                             f"{good}: 4 files and directories, 1 lost\n", ""))
        self.told(good)
        self.assertEqual(self.done("cat", good, "/c", "/lost/2", "/lost/3"), "c" * 1024 + "a" * 1024 + "b" * 1024)

    def test_repair(self):
        bad = self.hurt((self.address(2, 1), 21), (512 + 6 + 2, 8))
        before, good = read(bad), self.path("good")
        self.assertEqual(self.disk("repair", bad, good),
                         (0, f"{bad}: lost: /a: not whole\n{good}: 3 files and directories, 1 lost\n", ""))
        self.assertEqual((read(bad), v6("check", good)[1]), (before, "ok 3 nodes 12 free\n"))
        self.told(good)
        self.assertEqual(self.done("cat", good, "/b", "/c"), "b" * 1024 + "c" * 1024)
        self.assertEqual(self.done("cat", "--damaged", bad, "/a"), "a" * 512 + "\0" * 512)
        self.refused(f"{good}: there already; --replace makes it anew", "repair", bad, good)
        self.refused(f"{bad}: the damaged disk itself, which is kept", "repair", "--replace", bad, bad)

    def test_no_super_block(self):
        """It is told by the inodes how many blocks they have."""
        for word in (512, 514):
            bad = self.hurt((word, 0))
            self.assertIn("bad super-block", self.disk("check", bad)[1])
            self.assertEqual(self.done("cat", "--damaged", bad, "/b"), "b" * 1024)
            self.disk("repair", "--replace", bad, self.path("good"))
            self.assertEqual(self.done("cat", self.path("good"), "/a", "/b", "/c"), "".join(name * 1024 for name in "abc"))

    def test_no_root(self):
        bad = self.hurt((1024, 0o100644))
        self.told(bad, "no root", *(f"inode {n} has no name: a file of {size} bytes" for n,
                                    size in ((2, 1024), (3, 1024), (4, 1024))),
                  "v6 refuses it: image: no root", "inode 1, at byte 1024 in block 2, has mode 100644, and is no directory")
        self.assertEqual(self.disk("repair", bad, self.path("good"))[0], 0)
        self.assertEqual(self.done("cat", self.path("good"), "/lost/4"), "c" * 1024)

    def test_a_pack_without_swap(self):
        """4,872 blocks of files can be read, and not written."""
        self.new({"a": b"1" * 600})
        volume = Volume(read(self.path("image")))
        volume.fsize = 4872
        for block in range(4871, 3999, -1):
            volume.give(block)
        pack = self.put("pack", volume.image())
        self.assertEqual(self.done("cat", pack, "/a"), "1" * 600)
        self.done("get", pack, "/", self.path("back"))
        self.assertEqual(len(self.done("list", pack).splitlines()), 2)
        self.refused(f"{pack}: image: file system of 4872 blocks leaves no swap; {BESIDE}", "put", pack, pack, "/b")
        self.told(pack, "file system of 4872 blocks leaves no swap",
                  "v6 refuses it: image: file system of 4872 blocks leaves no swap",
                  "the file system's end, at byte 514 in block 1, is 4872, and at most 4000", BESIDE)
        self.done("repair", pack, self.path("good"))
        self.assertEqual(self.done("cat", self.path("good"), "/a"), "1" * 600)

    def test_random_damage(self):
        """Whatever is in its bytes, a disk is listed and repaired, and what comes out is a disk without a fault."""
        for count in range(40):
            self.new({f"d{k % 3}/{k}": self.random.randbytes(self.random.choice((10, 600, 5000))) for k in range(9)},
                     "--blocks", "120",
                     "--inodes", "32")
            data = bytearray(read(self.path("image")))
            for _ in range(self.random.choice((1, 3, 30, 300))):
                data[self.random.choice((self.random.randrange(512, 4096),
                                         self.random.randrange(len(data))))] = self.random.randrange(256)
            bad, good = self.put("bad", data), self.path("good")
            self.done("list", "--damaged", bad)
            survey = Survey(bytes(data))
            faults = survey.lines or survey.outside or survey.twice or "no root" in survey.report()
            checked, told = self.disk("check", bad)[:2]
            self.assertEqual((bool(faults), checked >= bool(faults)), (v6("check", bad)[0] != 0, True))
            if survey.is_doubtful():
                self.assertEqual(told, f"{bad}: {DOUBTFUL}; with --damaged, check tells all faults\n")
                told = self.disk("check", "--damaged", bad)[1]
            if faults:
                named = f"{bad}: v6 refuses it: {v6('check', bad)[1]}"
                self.assertRegex(told.partition(named)[2], f"^{bad}: .* (at byte|from byte) ")
            status, _, error = self.disk("repair", "--replace", bad, good)
            self.assertIn((status, error), ((0, ""), (1, f"disk.py: {bad}: {DOUBTFUL}\n")), count)
            self.told(good)

    def test_what_is_no_disk(self):
        """Bytes of which nothing tells that they are a disk: what is found is written, with a line that says so."""
        bad, good = self.put("bad", b"\xa5" * 512 + b"\0" * 512 + self.random.randbytes(4000)), self.path("good")
        status, out, error = self.disk("repair", bad, good)
        self.assertEqual((status, error), (1, f"disk.py: {bad}: {DOUBTFUL}\n"))
        self.assertIn("files and directories", out)
        self.told(good)

    def test_the_check_of_what_is_no_disk(self):
        """One line, whatever the bytes are; of a compressed disk it has the command that gives the disk back. All faults are told where
        that is asked for, and a disk is one whose root directory is whole, or its super-block."""
        good = read(self.hurt())
        zipped = b"\037\213" + self.random.randbytes(3000)
        for data, more in ((self.random.randbytes(100000), "; with --damaged, check tells all faults"), (b"", "; with --damaged, check tells all faults"),
                           (b"some text\n" * 400, "; with --damaged, check tells all faults"), (bytes(5000), "; with --damaged, check tells all faults"),
                           (zipped, ": it is compressed, and gunzip makes the disk of it")):
            bad = self.put("bad", data)
            self.assertEqual(self.disk("check", bad), (1, f"{bad}: {DOUBTFUL}{more}\n", ""))
            self.assertIn("v6 refuses it: image: bad super-block\n", self.disk("check", "--damaged", bad)[1])
        for command in ("list", "wants"):
            self.refused(f"{bad}: image: bad super-block: it is compressed, and gunzip makes the disk of it", command, bad)
        self.refused(f"{bad}: image: bad super-block: it is compressed, and gunzip makes the disk of it", "mkdir", bad, "/a")
        for at, value in ((512, 0), (1024, 0o100644)):
            self.assertNotIn(DOUBTFUL, self.disk("check", self.hurt((at, value)))[1])
        self.assertEqual(self.disk("check", self.put("boot", b"\037\213" + good[2:])), (0, "", ""))


class Places(Hurt):
    """Where the fault lies that `v6 check` names: by hand, from the layout of docs/manual/disk-image.md."""

    def where(self, bad, fault, *lines):
        """The last lines that are told, after the fault."""
        self.assertEqual(v6("check", bad)[1], f"image: {fault}\n")
        told = self.disk("check", bad)[1].partition("v6 refuses it: ")[2]
        self.assertEqual(told, f"image: {fault}\n" + "".join(f"{bad}: {line}\n" for line in lines))

    def test_too_long(self):
        bad = self.put("bad", read(self.hurt()).ljust(2494465, b"\0"))
        self.where(bad, "too long", "what stands from byte 2494464 on is more than a disk has")

    def test_super_block(self):
        self.where(self.hurt((512, 0)), "bad super-block", "the blocks of inodes, at byte 512 in block 1, are 0")
        self.where(self.hurt((512, 19)), "bad super-block",
                   "the blocks of inodes, at byte 512 in block 1, are 19, and the file system, at byte 514 in block 1, "
                   "ends with block 19")
        self.where(self.hurt((516, 101), (718, 300)), "bad super-block",
                   "the count of free blocks, at byte 516 in block 1, is 101, and at most 100",
                   "the count of free inodes, at byte 718 in block 1, is 300, and at most 100")
        self.where(self.hurt((514, 4001)), "file system of 4001 blocks leaves no swap",
                   "the file system's end, at byte 514 in block 1, is 4001, and at most 4000", BESIDE)

    def test_free_list(self):
        """Ten blocks are free, 10 to 19; the lowest is the last number of the group, and comes first. Where block 15 is all of
        the group, the next one begins in it."""
        good = read(self.hurt())
        count = struct.unpack("<H", good[516:518])[0]
        numbers = struct.unpack(f"<{count}H", good[518 : 518 + 2 * count])
        self.assertEqual(numbers, (0, *range(19, 9, -1)))
        self.where(self.hurt((518 + 2 * 5, 2)), "free block 2 outside",
                   "2 is number 5 of 11 of the free list, at byte 528 in block 1", "data blocks are 3 to 19")
        one = (516, 1), (518, 15)
        self.where(self.hurt(*one, (15 * 512, 101)), "free count in block 15",
                   "the count at byte 7680 in block 15 is 101, and at most 100",
                   "15 is number 0 of 1 of the free list, at byte 518 in block 1")
        self.where(self.hurt(*one, (15 * 512, 2), (15 * 512 + 4, 20)), "free block 20 outside",
                   "20 is number 1 of 2 of the free list, at byte 7684 in block 15", "data blocks are 3 to 19")
        self.where(self.hurt(*one, (self.address(4, 1), 15), (15 * 512, 101)), "free count in block 15",
                   "the count at byte 7680 in block 15 is 101, and at most 100",
                   "15 is number 0 of 1 of the free list, at byte 518 in block 1",
                   "15 is address 1 of inode 4, at byte 1130 in block 2: /c")

    def test_inodes(self):
        self.where(self.hurt((self.address(3, 0), 8)), "block 8 twice",
                   "8 is address 0 of inode 3, at byte 1096 in block 2: /b",
                   "8 is address 0 of inode 4, at byte 1128 in block 2: /c")
        self.where(self.hurt((self.address(3, 0), 12)), "block 12 twice",
                   "12 is address 0 of inode 3, at byte 1096 in block 2: /b",
                   "12 is number 8 of 11 of the free list, at byte 534 in block 1")
        root = 3 * 512
        self.where(self.hurt((self.address(3, 1), 65535), (root + 3 * 16, 0)), "inode 3 has block 65535 outside",
                   "65535 is address 1 of inode 3, at byte 1098 in block 2: inode 3, which has no name",
                   "data blocks are 3 to 19")

    def test_indirect_blocks(self):
        """/a is made a large file: its first address, and its eighth, become those of blocks that name others."""
        large = (1024 + 32, 0o110644), (self.address(2, 1), 0)
        self.where(self.hurt(*large, (4 * 512, 5), (4 * 512 + 2 * 7, 20)), "inode 2 has block 20 outside",
                   "20 is entry 7 of the indirect block 4 of inode 2, at byte 2062 in block 4: /a",
                   "data blocks are 3 to 19")
        double = *large, (self.address(2, 0), 0), (self.address(2, 7), 4), *((4 * 512 + 2 * n, 0) for n in range(256))
        tables = (4 * 512, 5), *((5 * 512 + 2 * n, 0) for n in range(256))
        self.where(self.hurt(*double, *tables, (5 * 512 + 2, 1)), "inode 2 has block 1 outside",
                   "1 is entry 1 of the indirect block 5 of inode 2, at byte 2562 in block 5: /a", "data blocks are 3 to 19")
        self.where(self.hurt(*double, (4 * 512 + 6, 1)), "inode 2 has block 1 outside",
                   "1 is entry 3 of the double indirect block 4 of inode 2, at byte 2054 in block 4: /a",
                   "data blocks are 3 to 19")
