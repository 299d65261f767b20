"""The example of a found pack: its two disks, its dialogue, and more that its programs do. What they must show is by hand, or by a
second program; the dialogue's is."""
import os
import subprocess

from tests.common import TOP, V6, Case, read, tool, v6

EXAMPLE = os.path.join(TOP, "examples", "pack")
IMAGE, PACK, SCRIPT = (os.path.join(EXAMPLE, name) for name in ("image", "pack", "script"))
console_main, disk_main, run_main = tool("console").main, tool("disk").main, tool("run").main


class FoundPack(Case):
    def shell(self, name, *words):
        done = subprocess.run([os.path.join(EXAMPLE, name), *words], capture_output=True, env={**os.environ, "V6": V6})
        self.assertEqual((done.returncode, done.stderr), (0, b""))
        return done.stdout

    def typed(self, text, image=IMAGE, second=PACK):
        """What is shown after the first prompt in small letters, and the pack that is left."""
        after = self.path("after")
        status, term, said = self.ran(console_main, "--v6", V6, image, "--second", second, "--second-disk", after,
                                      typed=b"stty -lcase\n" + text.encode())
        self.assertEqual((status, said), (0, ""))
        return term.decode().replace("\r\n", "\n").split("\n# ", 1)[1], after

    def test_dialogue(self):
        wanted = read(os.path.join(EXAMPLE, "term")) + b"\n== the pack ==\n" + read(os.path.join(EXAMPLE, "after"))
        self.assertEqual(self.shell("run.sh"), wanted)
        page = read(os.path.join(EXAMPLE, "README.md")).decode().split("```\n")[1]
        shown = [line.rstrip() for line in wanted.decode().replace("\r\n", "\n").split("\n")]
        self.assertEqual(page.split("\n"), shown)

    def test_the_script_is_one_of_the_console(self):
        """It goes on at both disks, and is refused where one of them is another, or isn't there."""
        script = self.put("script", read(SCRIPT))
        status, term, said = self.ran(console_main, "--v6", V6, IMAGE, "--second", PACK, "--script", script, typed=b"ls /etc\n")
        self.assertEqual((status, said), (0, ""))
        self.assertEqual(term, read(os.path.join(EXAMPLE, "term")) + b"ls /etc\r\ninit\r\nmount\r\nmtab\r\numount\r\n# ")
        self.assertEqual(read(script), read(SCRIPT) + b"type ls /etc\nrun 10000\n")
        self.assertEqual(self.call(run_main, "--v6", V6, IMAGE, SCRIPT)[:2], (3, ""))

    def test_build(self):
        self.shell("build.sh", self.folder)
        self.assertEqual((read(self.path("image")), read(self.path("pack"))), (read(IMAGE), read(PACK)))

    def test_without_a_second_disk(self):
        status, term, said = self.ran(console_main, "--v6", V6, IMAGE, typed=b"/etc/mount /dev/rk1 /usr\n/etc/mount\n")
        self.assertEqual((status, said), (0, ""))
        self.assertEqual(term, b"# /ETC/MOUNT /DEV/RK1 /USR\r\nMOUNT: NO SUCH DEVICE OR ADDRESS\r\n# /ETC/MOUNT\r\n# ")

    def test_calls(self):
        """trace.py knows the two calls and their errors: here with one disk."""
        script = self.put("script", b"run 10000\ntype /etc/mount /dev/rk1 /usr; /etc/mount /dev/null /usr; /etc/umount /dev/null\nrun 20000\n")
        status, told, _ = self.call(tool("trace").main, "--v6", V6, IMAGE, "3968", script)
        self.assertEqual(status, 0)
        for call in ('mount("/dev/rk1", "/usr", 0) = ENXIO', 'mount("/dev/null", "/usr", 0) = ENOTBLK', 'umount("/dev/null") = ENOTBLK'):
            self.assertIn(f"] {call}\n", told)

    def test_what_is_refused(self):
        """By mount(II) and umount(II): each error that these two can give, but those of the path names."""
        shown, _ = self.typed("/etc/mount /dev/rk2 /usr\n/etc/mount /dev/rk1 /no\n/etc/mount /dev/rk1 /bin/sh\n/etc/mount /dev/rk1 /\n"
                              "/etc/mount /dev/rk1\n/etc/umount\n/etc/umount /dev/tty8\n/etc/mount /dev/rk1 /usr/sys\n"
                              "/etc/mount /dev/rk1 /usr\n/etc/mount\nls /usr/sys\nrm /usr/sys/readme\n/etc/umount /dev/rk1\n")
        self.assertEqual(shown, "/etc/mount /dev/rk2 /usr\nmount: No such file or directory\n"
                                "# /etc/mount /dev/rk1 /no\nmount: No such file or directory\n"
                                "# /etc/mount /dev/rk1 /bin/sh\nmount: Mount device busy\n"
                                "# /etc/mount /dev/rk1 /\nmount: Mount device busy\n"
                                "# /etc/mount /dev/rk1\narg count\n# /etc/umount\narg count\n"
                                "# /etc/umount /dev/tty8\numount: Block device required\n"
                                "# /etc/mount /dev/rk1 /usr/sys\n# /etc/mount /dev/rk1 /usr\nmount: Mount device busy\n"
                                "# /etc/mount\nrk1 on /usr/sys\n# ls /usr/sys\nbin\ndmr\nken\nreadme\n"
                                "# rm /usr/sys/readme\n# /etc/umount /dev/rk1\n# ")

    def test_what_holds_it(self):
        """An open file, and a program that runs; and a pack that is mounted when the run ends is whole too."""
        shown, after = self.typed("/etc/mount /dev/rk1 /usr\nsleep 1000 </usr/readme &\n/etc/umount /dev/rk1\nkill 4\n"
                                  "/etc/umount /dev/rk1\n/etc/mount /dev/rk1 /usr\necho label: ken 7 >>/usr/readme\n")
        self.assertIn("# /etc/umount /dev/rk1\numount: Mount device busy\n# kill 4\n", shown)
        self.assertEqual(shown.count("busy"), 1)
        self.assertEqual(v6("check", after), (0, "ok 8 nodes 68 free\n"))
        self.assertEqual(self.call(disk_main, "cat", after, "/readme")[1].splitlines()[2:], ["label: ken 7"])

    def test_factor(self):
        shown, _ = self.typed("/etc/mount /dev/rk1 /usr\n" + "".join(f"/usr/bin/factor {n}\n" for n in (1, 2, 65521, 65535, 49)))
        self.assertEqual(shown.split("# ", 1)[1], "".join(
            f"/usr/bin/factor {n}\n{n}\n" + "".join(f"     {one}\n" for one in found) + "# "
            for n, found in ((1, ()), (2, (2,)), (65521, (65521,)), (65535, (3, 5, 17, 257)), (49, (7, 7)))))

    def test_the_first_disk_beside_itself(self):
        """Its own image as the second one: a copy of it, with its own programs, and nothing of one is in the other."""
        shown, after = self.typed("/etc/mount /dev/rk1 /usr\nls /usr\nrm /usr/bin/ed\n/usr/bin/ls /bin/ed /usr/bin/ed\n", second=IMAGE)
        self.assertEqual(shown, "/etc/mount /dev/rk1 /usr\n# ls /usr\nbin\ndev\netc\nusr\n# rm /usr/bin/ed\n"
                                "# /usr/bin/ls /bin/ed /usr/bin/ed\n/bin/ed\n/usr/bin/ed not found\n# ")
        self.assertEqual(v6("check", after), (0, "ok 32 nodes 356 free\n"))
