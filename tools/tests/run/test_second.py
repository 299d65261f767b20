"""The second disk of run.py and console.py: where it goes, what is refused, and that no disk is lost. The disks are those of examples/pack."""
import hashlib
import os
import shutil
import subprocess
import sys
import unittest.mock

from tests.common import DISK_BYTES, TOOLS, TOP, V6, Case, read, tool, v6, write
from tests.run.persons import as_person

EXAMPLE = os.path.join(TOP, "examples", "pack")
IMAGE, PACK = (os.path.join(EXAMPLE, name) for name in ("image", "pack"))
MOUNT = "stty -lcase\n/etc/mount /dev/rk1 /usr\n"
console, disk_main, run_main = tool("console"), tool("disk").main, tool("run").main
console_main = console.main


def digest(name):
    return hashlib.sha256(read(name)).hexdigest()


class Second(Case):
    def setUp(self):
        super().setUp()
        self.image, self.pack = self.put("image", read(IMAGE)), self.put("pack", read(PACK))

    def head(self, core=3968):
        return f"; console: image sha256 {digest(self.image)} core {core} second sha256 {digest(self.pack)}\n"

    def cat(self, disk, path):
        return self.call(disk_main, "cat", disk, path)[:2]


class Run(Second):
    SCRIPT = "run 10000\ntype /etc/mount /dev/rk1 /usr\nrun 10000\ntype echo a >/usr/a; echo b >/b; cat /usr/a\nrun 20000\n"

    def run_it(self, *words):
        return self.call(run_main, "--v6", V6, *words)

    def script(self):
        return self.put("script", self.SCRIPT.encode())

    def test_outputs(self):
        """Each disk goes where it is asked for, also in the place of its image; a disk that isn't asked for stays."""
        script, shown = self.script(), "# /ETC/MOUNT /DEV/RK1 /USR\r\n# ECHO A >/USR/A; ECHO B >/B; CAT /USR/A\r\nA\r\n# "
        self.assertEqual(self.run_it(self.image, script, "--second", self.pack), (0, shown, ""))
        self.assertEqual((read(self.image), read(self.pack)), (read(IMAGE), read(PACK)))
        log, after = self.path("log"), self.path("after")
        words = ("--second", self.pack, "--log", log, "--second-disk", after, "--disk", self.image)
        self.assertEqual(self.run_it(self.image, script, *words), (0, shown, ""))
        self.assertEqual((v6("audit", log)[0], read(self.pack)), (0, read(PACK)))
        self.assertEqual((self.cat(self.image, "/b"), self.cat(after, "/a")), ((0, "b\n"), (0, "a\n")))
        self.assertEqual([self.cat(*words)[0] for words in ((self.image, "/usr/a"), (after, "/b"))], [1, 1])
        self.assertEqual(self.run_it(IMAGE, script, "--second", self.pack, "--second-disk", self.pack), (0, shown, ""))
        self.assertEqual((len(read(self.pack)), self.cat(self.pack, "/a")), (DISK_BYTES, (0, "a\n")))

    def test_what_is_refused(self):
        script, before = self.script(), (read(IMAGE), read(PACK))
        out, link = self.path("out"), self.path("link")
        os.symlink(self.pack, link)
        for words, said in ((("--second-disk", out), "--second-disk: there is none without --second"),
                            (("--second", self.pack, "--eight", "--term", out), "--eight and --second: a machine has eight lines, or a second disk"),
                            (("--second", self.pack, "--disk", link), "second and disk are the same file"),
                            (("--second", self.pack, "--second-disk", self.image), "image and second disk are the same file"),
                            (("--second", self.image, "--second-disk", self.image), "image and second disk are the same file"),
                            (("--second", self.pack, "--second-disk", out, "--disk", out), "disk and second disk are the same file"),
                            (("--second", self.pack, "--log", self.pack), "second and log are the same file"),
                            (("--second", script), "second and script are the same file"),
                            (("--second", self.pack, "--second-disk", script), "script and second disk are the same file")):
            status, shown, error = self.run_it(self.image, script, *words)
            self.assertEqual((status, shown, error.splitlines()[-1]), (2, "", f"run.py: error: {said}"))
        absent = self.path("no/disk")
        self.assertEqual(self.run_it(self.image, script, "--second", self.pack, "--second-disk", absent),
                         (3, "", f"run.py: {absent}: No such file or directory\n"))
        self.assertEqual((read(self.image), read(self.pack), os.path.exists(out)), (*before, False))

    def test_faults_of_the_second_disk(self):
        """They are told, and neither disk is written."""
        script, disk, none = self.script(), self.path("disk"), self.path("none")
        bad, long = self.put("bad", bytes(2000)), self.put("long", bytes(DISK_BYTES + 1))
        many = self.put("many", read(PACK)[:514] + (4873).to_bytes(2, "little") + read(PACK)[516:])
        for second, status, said in ((none, 2, f"{none}: No such file or directory"), (self.folder, 2, f"{self.folder}: Is a directory"),
                                     (bad, 12, f"{bad}: bad super-block"), (long, 12, f"{long}: too long"),
                                     (many, 12, f"{many}: file system of 4873 blocks is too long")):
            said += f": tools/disk.py --pack check {second} tells all faults" * (status == 12)
            found = self.run_it(self.image, script, "--second", second, "--second-disk", self.path("new"), "--disk", disk)
            self.assertEqual(found, (status, "", f"run.py: {said}\n"))
        self.assertEqual([os.path.exists(self.path(name)) for name in ("disk", "new")], [False, False])

    def test_a_second_disk_that_is_cut(self):
        script, cut, disk = self.script(), self.put("cut", read(PACK)[:3000]), self.path("disk")
        said = f"run.py: {cut}: it ends at byte 3000, before what its files hold: tools/disk.py --pack check {cut} tells all faults"
        words = (self.image, script, "--second", cut, "--second-disk", disk)
        self.assertEqual(self.run_it(*words), (3, "", f"{said}; --damaged plays it with zeros there\n"))
        self.assertFalse(os.path.exists(disk))
        self.assertEqual((self.run_it(*words, "--damaged")[0], len(read(disk))), (0, DISK_BYTES))

    def test_a_run_that_is_not_done(self):
        """A panic: the terminal is kept, and no disk takes the place of its image."""
        source = self.put("init.s", b"\tsys\tbreak; 140000\n1:\tsys\tfork\n2:\tbr\t2b\n\tbr\t1b\n")
        self.assertEqual(self.call(tool("as").main, "-o", self.path("init"), source), (0, "", ""))
        self.assertEqual(self.call(disk_main, "--v6", V6, "put", self.image, self.path("init"), "/etc/init"), (0, "", ""))
        before, log = read(self.image), self.path("log")
        words = ("--second", self.pack, "--second-disk", self.pack, "--disk", self.image, "--log", log, "--core", "900")
        self.assertEqual(self.run_it(self.image, self.put("script", b"run 10000\n"), *words), (7, "", "run.py: panic: out of swap space\n"))
        self.assertEqual((read(self.image), read(self.pack), b"panic swap" in read(log)), (before, read(PACK), True))

    def test_a_script_of_the_console(self):
        """It is refused without its second disk, and beside another one; other tools, which have none, refuse it too."""
        script, other = self.put("script", (self.head() + self.SCRIPT).encode()), self.put("other", read(PACK) + bytes(512))
        self.assertEqual(self.run_it(self.image, script, "--second", self.pack)[::2], (0, ""))
        shutil.copy(self.pack, self.path("copy"))
        self.assertEqual(self.run_it(self.image, script, "--second", self.path("copy"))[0], 0)
        said, words = f"run.py: {script} was typed beside another second disk than {other}: --replay plays it all the same\n", ("--second", other)
        self.assertEqual(self.run_it(self.image, script, *words), (3, "", said))
        self.assertEqual(self.run_it(self.image, script, *words, "--replay")[::2], (0, ""))
        said = f"{script} was typed beside a second disk: --second IMAGE2"
        for more in ((), ("--replay",)):  # without its disk it would be another run
            self.assertEqual(self.run_it(self.image, script, *more), (3, "", f"run.py: {said} plays it so\n"))
        none = self.path("none")
        self.assertEqual(self.run_it(self.image, script, "--second", none), (2, "", f"run.py: {none}: No such file or directory\n"))
        for name, more in (("look", ("-c", "log 1")), ("trace", ()), ("page", ("-o", self.path("page")))):
            way = f"{script} was typed beside a second disk: look.py --second IMAGE2 shows what its log tells" if name == "trace" else f"{said} plays it so"
            for more in (more, (*more, "--replay")):
                self.assertEqual(self.call(tool(name).main, "--v6", V6, self.image, "3968", script, *more), (1, "", f"{name}.py: {way}\n"))


class Console(Second):
    def session(self, typed, *words):
        return self.ran(console_main, "--v6", V6, self.image, *words, typed=typed.encode())

    def test_both_disks(self):
        """Neither image is changed; the disks that are left go where they are asked for, and so in the place of the images."""
        script, disk, second = (self.path(name) for name in ("script", "disk", "second"))
        typed = MOUNT + "echo new >/usr/new\necho old >/old\ncat /usr/new\n"
        words = ("--second", self.pack, "--disk", disk, "--second-disk", second, "--script", script)
        status, term, said = self.session(typed, *words)
        self.assertEqual((status, term, said), (0, b"# STTY -LCASE\r\n# /etc/mount /dev/rk1 /usr\r\n# echo new >/usr/new\r\n"
                                                   b"# echo old >/old\r\n# cat /usr/new\r\nnew\r\n# ", ""))
        self.assertEqual((read(self.image), read(self.pack)), (read(IMAGE), read(PACK)))
        self.assertEqual((self.cat(disk, "/old"), self.cat(second, "/new")), ((0, "old\n"), (0, "new\n")))
        self.assertEqual((len(read(second)), self.cat(second, "/old")[0], self.cat(disk, "/usr/new")[0]), (DISK_BYTES, 1, 1))
        lines = ["run 10000", *(line for one in typed.splitlines() for line in (f"type {one}", "run 10000"))]
        self.assertEqual(read(script).decode(), self.head() + "".join(f"{line}\n" for line in lines))
        self.assertEqual(self.session("echo a >/usr/b\n", "--second", self.pack, "--second-disk", self.pack)[0], 0)
        self.assertEqual(self.session(MOUNT + "echo a >/usr/b\n", "--second", self.pack, "--second-disk", self.pack)[0], 0)
        self.assertEqual(self.cat(self.pack, "/b"), (0, "a\n"))

    def test_taking_back(self):
        """What was done on the pack goes too, and the pack that is left is that of the lines that stand."""
        second = self.path("second")
        status, term, said = self.session(MOUNT + "echo a >/usr/a\necho b >/usr/b\n~u\nls /usr\n~g 2\n", "--second", self.pack,
                                          "--second-disk", second)
        self.assertEqual((status, said), (0, "\nconsole: after line 3: echo a >/usr/a\n\nconsole: after line 2: "
                                             "/etc/mount /dev/rk1 /usr\n"))
        self.assertTrue(term.endswith(b"# ls /usr\r\na\r\nbin\r\ndmr\r\nken\r\nreadme\r\n# "))
        self.assertEqual([self.cat(second, path)[0] for path in ("/a", "/b", "/readme")], [1, 1, 0])

    def test_an_image_that_is_cut(self):
        """Neither disk may be: what is missing would be zeros, and the disk that is left would look whole."""
        kept = self.path("kept")
        cut, root = self.put("cut", read(PACK)[:3000]), self.put("root", read(IMAGE)[:20000])
        said = "it ends at byte {}, before what its files hold: tools/disk.py {}check {} tells all faults\n"
        self.assertEqual(self.session(MOUNT, "--second", cut, "--second-disk", kept),
                         (1, b"", f"\nconsole: {cut}: {said.format(3000, '--pack ', cut)}"))
        self.image = root
        self.assertEqual(self.session("ls\n", "--disk", kept), (1, b"", f"\nconsole: {root}: {said.format(20000, '', root)}"))
        self.assertFalse(os.path.exists(kept))

    def test_changes_that_nothing_keeps(self):
        """They are told, but where --second-disk or --script keeps them, and where no line that stands has made any."""
        made = MOUNT + "echo new >/usr/new\n"
        told = f"\nconsole: what was changed on {self.pack} isn't kept: --second-disk FILE keeps it, or --script FILE what was typed\n"
        for typed, more, said in ((made, (), told), (MOUNT + "chmod 600 /usr/readme\n", (), told), (MOUNT + "rm /usr/readme\n", (), told),
                                  (MOUNT + "cat /usr/readme\nls /usr/bin\n/etc/umount /dev/rk1\n", (), ""), ("echo a >/new\n", (), ""),
                                  (made, ("--second-disk", self.path("second")), ""), (made, ("--script", self.path("script")), "")):
            status, _, found = self.session(typed, "--second", self.pack, *more)
            self.assertEqual((status, found), (0, said), typed)
        self.assertEqual(self.session(made + "~u\n", "--second", self.pack)[2], "\nconsole: after line 2: /etc/mount /dev/rk1 /usr\n")
        self.assertEqual(read(self.pack), read(PACK))

    def asked(self, *answers):
        """What a person is told who has changed the pack, and answers at the end."""
        begin = console.Keyboard.__init__
        with unittest.mock.patch.object(console.Keyboard, "__init__", as_person(begin)):
            return self.session(MOUNT + "echo new >/usr/new\n~.\n" + "".join(f"{answer}\n" for answer in answers), "--second", self.pack)

    def test_a_person_names_a_file_at_the_end(self):
        """It isn't one that is there, unless it is the pack's own; a return keeps nothing."""
        kept, there, ask = self.path("kept"), self.put("there", b"old"), b"a file to keep it in now, or a return for none: "
        status, term, said = self.asked(there, self.path("no/file"), kept)
        self.assertEqual((status, term.count(ask), self.cat(kept, "/new"), read(there)), (0, 3, (0, "new\n"), b"old"))
        self.assertTrue(said.endswith(f" what was typed\n\nconsole: {there}: there already\n\nconsole: {self.path('no/file')}: No such file or directory\n"), said)
        self.assertEqual(read(self.pack), read(PACK))
        for answers in (("",), ()):
            status, term, said = self.asked(*answers)
            self.assertEqual((status, term.count(ask), said.count("isn't kept")), (0, 1, 1))
        self.assertEqual(read(self.pack), read(PACK))
        self.assertEqual((self.asked(self.pack)[0], self.cat(self.pack, "/new")), (0, (0, "new\n")))

    def test_a_script_goes_on(self):
        """At the same two disks alone."""
        script, other = self.path("script"), self.put("other", read(PACK) + bytes(512))
        self.session(MOUNT, "--second", self.pack, "--script", script)
        before = read(script)
        self.assertEqual(before.decode().splitlines()[0] + "\n", self.head())
        refused, replay = "another --script begins a new dialogue, and ", "--replay plays this one"
        for words, what, way in (((), "beside a second disk", "--second IMAGE2 goes on with it"),
                                 (("--replay",), "beside a second disk", "--second IMAGE2 goes on with it"),
                                 (("--lines",), "beside a second disk", "--second IMAGE2 goes on with it"),
                                 (("--second", other), f"beside another second disk than {other}", replay)):
            self.assertEqual(self.session("ls\n", "--script", script, *words),
                             (1, b"", f"\nconsole: {script} was typed {what}: {refused}{way}\n"))
        self.assertEqual(read(script), before)
        self.assertEqual(self.session("ls /usr/bin\n", "--script", script, "--second", self.pack)[1].split(b"# ")[-2], b"ls /usr/bin\r\nfactor\r\n")
        status, _, said = self.session("", "--script", script, "--second", other, "--replay")
        self.assertEqual((status, said, digest(other) in read(script).decode()), (0, "", True))
        one, eight = self.path("one"), self.path("eight")
        self.session("ls\n", "--script", one)
        self.session("ls\n", "--script", eight, "--lines")
        for name, what, way, more in ((one, "without a second disk", replay, ()),
                                      (eight, "at eight lines of the terminal", "without --second it goes on", ()),
                                      (eight, "at eight lines of the terminal", "without --second it goes on", ("--replay",))):
            self.assertEqual(self.session("", "--script", name, "--second", self.pack, *more)[2],
                             f"\nconsole: {name} was typed {what}: {refused}{way}\n")

    def test_a_pack_that_changes_meanwhile(self):
        """Each line is played on what was read of it; what another program has put in its place isn't written over."""
        for second, place in ((self.path("second"), self.path("second")), (self.pack, self.pack + ".1")):
            write(self.pack, read(PACK))
            command = [sys.executable, "-S", os.path.join(TOOLS, "console.py"), self.image, "--v6", V6, "--second", self.pack,
                       "--second-disk", second]
            with subprocess.Popen(command, stdin=subprocess.PIPE, stdout=subprocess.PIPE, stderr=subprocess.PIPE) as ran:
                self.assertEqual(ran.stdout.read(2), b"# ")
                write(self.pack, bytes(2000))
                out, said = ran.communicate(b"/etc/mount /dev/rk1 /usr\nls /usr/bin\n")
            self.assertTrue(out.endswith(b"# LS /USR/BIN\r\nFACTOR\r\n# "))
            self.assertIn(f"{self.pack} isn't any more what it was", said.decode())
            self.assertEqual((ran.returncode, read(self.pack)), (int(place != second), bytes(2000)))
            self.assertEqual(v6("check", place), (0, "ok 8 nodes 68 free\n"))

    def test_who(self):
        """Programs of both disks are named; `v6 memory` has one, so no words of theirs are."""
        said = self.session(MOUNT + "sleep 100 &\n~w\n", "--second", self.pack)[2]
        self.assertEqual(said, "\nconsole: process 1 reads the terminal (/bin/sh or /etc/init)\nprocess 4, a child of 1, sleeps for a time "
                               "(/bin/echo or /bin/sleep)\n")
        said = self.session(MOUNT + "~w\n", "--second", self.image)[2]
        self.assertEqual(said, "\nconsole: process 1 reads the terminal (/bin/sh or /etc/init or /bin/sh of the second disk or /etc/init of "
                               "the second disk)\n")

    def test_what_is_refused(self):
        script, pack = self.path("script"), self.pack
        for words, said in ((("--second-disk", script), "--second-disk: there is none without --second"),
                            (("--lines", "--second", pack), "--lines and --second: a machine has eight lines, or a second disk"),
                            (("--second", pack, "--script", pack), "--script and --second are the same file"),
                            (("--second", pack, "--disk", pack), "--disk and --second are the same file"),
                            (("--second", pack, "--script", script, "--second-disk", script), "--script and --second-disk are the same file"),
                            (("--second", pack, "--disk", script, "--second-disk", script), "--disk and --second-disk are the same file"),
                            (("--second", pack, "--second-disk", self.image), "--second-disk and image are the same file")):
            status, _, error = self.session("", *words)
            self.assertEqual((status, error.splitlines()[-1]), (2, f"console.py: error: {said}"))
        self.assertEqual((read(self.image), read(pack), os.path.exists(script)), (read(IMAGE), read(PACK), False))
        none, absent = self.path("none"), self.path("no/disk")
        for words, said in ((("--second", none), f"{none}: No such file or directory"),
                            (("--second", self.put("bad", bytes(2000))), f"{self.path('bad')}: bad super-block: "
                             f"tools/disk.py --pack check {self.path('bad')} tells all faults"),
                            (("--second", pack, "--second-disk", "/dev/full"), "/dev/full: not a file, and only a file is replaced"),
                            (("--second", pack, "--second-disk", absent), f"{absent}: No such file or directory")):
            self.assertEqual(self.session("ls\n", *words), (1, b"", f"\nconsole: {said}\n"))
