"""disk.py --pack: second disks, whose file systems may have all blocks of a pack."""
import os

from tests.common import DISK_BYTES, TOP, V6, read, tool, v6, write
from tests.disk.disks import BESIDE, Disks, disk_main
from tests.pages import Runs, commands

console_main = tool("console").main
IMAGE = os.path.join(TOP, "examples", "pack", "image")


class Packs(Disks):
    def pack(self, blocks="4872", files=(("a/x", b"12"), ("b", b"3" * 5000))):
        folder, place = self.path("folder"), self.path("pack")
        for name, data in files:
            os.makedirs(os.path.dirname(os.path.join(folder, name)), exist_ok=True)
            write(os.path.join(folder, name), data)
        self.assertEqual(self.of_pack("new", place, folder, "--blocks", blocks, "--time", "150000000"), (0, "", ""))
        return place

    def of_pack(self, *words):
        return self.call(disk_main, "--v6", V6, "--pack", *words)

    def no_swap(self, pack, blocks=4872):
        """v6 takes it as a second disk alone."""
        self.assertEqual(v6("check", pack), (6, f"image: file system of {blocks} blocks leaves no swap\n"))
        self.assertEqual(self.of_pack("check", pack), (0, "", ""))

    def test_a_whole_pack(self):
        """It is read, changed, and made again of its folder and table to the last byte."""
        pack = self.pack()
        self.assertEqual(len(read(pack)), DISK_BYTES)
        self.no_swap(pack)
        for words in (("mkdir", pack, "/c"), ("put", pack, self.put("new", b"4"), "/c/new"), ("ln", pack, "/b", "/c/b"), ("rm", pack, "/a/x"),
                      ("mv", pack, "/c/b", "/a/b"), ("chmod", pack, "0600", "/a/b"), ("chown", pack, "3", "4", "/c")):
            self.assertEqual(self.of_pack(*words), (0, "", ""), words)
        self.no_swap(pack)
        self.assertEqual(self.call(disk_main, "cat", pack, "/c/new", "/b")[:2], (0, "4" + "3" * 5000))
        self.assertEqual(self.of_pack("get", pack, "/", self.path("out"), "--table", self.path("table")), (0, "", ""))
        again = self.path("again")
        self.assertEqual(self.of_pack("new", again, self.path("out"), "--table", self.path("table")), (0, "", ""))
        for disk in (pack, again):
            self.assertEqual(self.call(disk_main, "list", disk)[1].count("\n"), 6)
        self.no_swap(again)

    def test_mounted(self):
        """The kernel fills it to the last block, and leaves a pack without a fault."""
        pack, after = self.pack(files=[("b", b"3" * 5000)]), self.path("after")
        typed = b"/etc/mount /dev/rk1 /usr\ncp /usr/b /usr/c\ncat /usr/c /usr/c /usr/c /usr/c >/usr/d\n"
        status, _, said = self.ran(console_main, "--v6", V6, IMAGE, "--second", pack, "--second-disk", after, typed=typed)
        self.assertEqual((status, said), (0, ""))
        self.no_swap(after)
        self.assertEqual(self.call(disk_main, "cat", after, "/d")[:2], (0, "3" * 20000))

    def test_other_sizes(self):
        """A smaller one is a disk like others; it grows to a pack, and is repaired as one."""
        pack = self.pack("100")
        self.assertEqual((v6("check", pack)[0], self.of_pack("check", pack)), (0, (0, "", "")))
        self.refused(f"at most 4000 blocks and 65535 inodes; {BESIDE}", "grow", pack, "--blocks", "4001")
        self.assertEqual(self.of_pack("grow", pack, "--blocks", "4872", "--inodes", "2000"), (0, "", ""))
        self.no_swap(pack)
        for option, blocks in (("--pack", 4872), (None, 4000)):
            new = self.path(f"new{blocks}")
            words = [option] * bool(option)
            self.assertEqual(self.call(disk_main, "--v6", V6, *words, "repair", pack, new)[0], 0)
            self.assertEqual(int.from_bytes(read(new)[514:516], "little"), blocks)

    def test_what_is_refused(self):
        pack = self.pack()
        before = read(pack)
        self.refused(f"{pack}: image: file system of 4872 blocks leaves no swap; {BESIDE}", "mkdir", pack, "/no")
        for words, why in ((("new", self.path("more"), self.path("folder"), "--blocks", "4873"),
                            "a disk of 4873 blocks and 960 inodes can't be made: these inodes and a root need 63 blocks, and there are at most 4872"),
                           (("grow", pack, "--blocks", "4873"), "at most 4872 blocks and 65535 inodes")):
            self.assertEqual(self.of_pack(*words), (1, "", f"disk.py: {why}\n"))
        self.assertEqual(read(pack), before)
        long = self.put("long", before[:514] + (4873).to_bytes(2, "little") + before[516:])
        said = "second image: file system of 4873 blocks is too long"
        self.assertEqual(self.of_pack("mkdir", long, "/no"), (1, "", f"disk.py: {long}: {said}\n"))
        status, shown, _ = self.of_pack("check", long)
        self.assertEqual((status, shown.splitlines()[-1]), (1, f"{long}: v6 refuses it: {said}"))
        at = 1024 + 32 * 2 + 8  # the first address of inode 3
        bad = self.put("bad", before[:at] + b"\377\377" + before[at + 2 :])
        status, shown, _ = self.of_pack("check", bad)
        self.assertEqual((status, shown.splitlines()[-3:-1]), (1, [
            f"{bad}: v6 refuses it: second image: inode 3 has block 65535 outside",
            f"{bad}: 65535 is address 0 of inode 3, at byte {at} in block 2: /b"]), shown)


class Page(Runs):
    def test_page(self):
        """The commands of this part of the page of disk.py print what it shows."""
        part = read(os.path.join(TOP, "docs", "tools", "disk.md")).decode().split("\n## Packs\n")[1].split("\n## ")[0]
        for command, shown in commands(part):
            self.assertEqual(self.play(command), (0, shown), command)
