"""run.py: what it refuses, and that no file is lost where a run isn't done."""
import hashlib
import os

from tests.common import DISK_BYTES, TOP, V6, Case, read, tool

run_main, as_main = tool("run").main, tool("as").main
HI = os.path.join(TOP, "examples", "hi")
SHOWN = "HI\r\n"
NO_INIT = ("the disk has no /etc/init, so nothing can run on it. A disk that was mounted goes beside one that runs: --second, "
           "docs/tools/pack.md")


class Run(Case):
    def run_it(self, *words):
        return self.call(run_main, "--v6", V6, *words)

    def image(self):
        return self.put("image", read(os.path.join(HI, "image")))

    def test_outputs(self):
        image, script = self.image(), os.path.join(HI, "script")
        self.assertEqual(self.run_it(image, script), (0, SHOWN, ""))
        term, log = self.path("term"), self.path("log")
        self.assertEqual(self.run_it(image, script, "--term", term, "--log", log, "--disk", image), (0, "", ""))
        self.assertEqual((read(term), read(log)[:10], len(read(image))), (SHOWN.encode(), b"boot 3968 ", DISK_BYTES))

    def test_one_file_for_two(self):
        image, script = self.image(), os.path.join(HI, "script")
        before, one = read(image), self.path("one")
        for words, said in ((("--term", one, "--log", one), "term and log"), (("--log", one, "--disk", one), "log and disk"),
                            (("--term", image), "image and term"), (("--disk", script), "script and disk"),
                            (("--log", "-"), "term and log"), (("--log", "/dev/stdout"), "term and log")):
            status, out, error = self.run_it(image, script, *words)
            self.assertEqual((status, out, error.splitlines()[-1]), (2, "", f"run.py: error: {said} are the same file"))
        self.assertEqual((read(image), os.path.exists(one)), (before, False))

    def test_eight_lines(self):
        """What a program writes on line 1 goes to the file beside that of the console. It shows capitals, as that does."""
        program, image, script = self.path("init"), self.image(), os.path.join(HI, "script")
        source = self.put("init.s", b"\tsys\tmknod; tty; 20666; 1\n\tsys\topen; tty; 2\n\tsys\twrite; one; 4\n1:\tbr\t1b\n"
                                    b"tty:\t</dev/tty1\\0>\none:\t<one\\n>\n")
        self.assertEqual(self.call(as_main, "-o", program, source), (0, "", ""))
        self.assertEqual(self.call(tool("disk").main, "--v6", V6, "put", image, program, "/etc/init"), (0, "", ""))
        term = self.path("term")
        self.assertEqual(self.run_it(image, script, "--eight", "--term", term), (0, "", ""))
        shown = [read(term), *(read(f"{term}.{line}") for line in range(1, 8))]
        self.assertEqual(shown, [b"", b"ONE\r\n", *6 * [b""]])

    def test_a_name_of_one_of_eight_lines(self):
        """No other file may have one of the names beside that of the console, which has to be one."""
        image, script = self.image(), os.path.join(HI, "script")
        before, term = read(image), self.path("term")
        link = self.path("link")
        os.symlink("term.7", link)
        for words, said in ((("--term", term, "--log", f"{term}.1"), "log and term.1 are the same file"),
                            (("--term", term, "--disk", link), "disk and term.7 are the same file"),
                            ((), "--eight needs the FILE of --term, beside which the other lines have theirs")):
            status, out, error = self.run_it(image, script, "--eight", *words)
            self.assertEqual((status, out, error.splitlines()[-1]), (2, "", f"run.py: error: {said}"))
        copy = self.put("image.7", before)
        status, out, error = self.run_it(copy, script, "--eight", "--term", image)
        self.assertEqual((status, out, error.splitlines()[-1]), (2, "", "run.py: error: image and term.7 are the same file"))
        self.assertEqual((read(image), read(copy), os.path.exists(term)), (before, before, False))

    def test_a_run_that_is_not_done(self):
        """The image keeps its bytes though it is the disk of the run too; what was shown until then is kept."""
        program, image = self.path("init"), self.image()
        source = self.put("init.s", b"\tsys\topen; tty; 2\n\tsys\twrite; hi; 3\n\tsys\tbreak; 140000\n"
                                    b"1:\tsys\tfork\n2:\tbr\t2b\n\tbr\t1b\n"
                                    b"tty:\t</dev/tty8\\0>\nhi:\t<hi\\n>\n")
        self.assertEqual(self.call(as_main, "-o", program, source), (0, "", ""))
        self.assertEqual(self.call(tool("disk").main, "--v6", V6, "put", image, program, "/etc/init"), (0, "", ""))
        before, log = read(image), self.path("log")
        script = self.put("script", b"run 10000\n")
        said = "run.py: panic: out of swap space\n"
        self.assertEqual(self.run_it(image, script, "--core", "900", "--log", log, "--disk", image), (7, SHOWN, said))
        self.assertEqual((read(image), b"panic swap" in read(log)), (before, True))

    def test_a_script_of_another_disk(self):
        """Scripts of the console name disk and core in their first line; nobody plays one over others without being told to."""
        image, digest = self.image(), hashlib.sha256(read(os.path.join(HI, "image"))).hexdigest()
        script = self.put("script", f"; console: image sha256 {digest} core 1200\nrun 100\n".encode())
        other = self.put("other", read(os.path.join(HI, "image")) + bytes(512))
        log = self.path("log")
        self.assertEqual(self.run_it(image, script, "--log", log), (0, SHOWN, ""))
        self.assertEqual(read(log)[:10], b"boot 1200 ")
        for disk, core, what in ((other, "1200", f"at another disk than {other}"), (image, "1000", "with another size of core")):
            said = f"{script} was typed {what}: --replay plays it all the same\n"
            self.assertEqual(self.run_it(disk, script, "--core", core), (3, "", "run.py: " + said))
            self.assertEqual(self.run_it(disk, script, "--core", core, "--replay"), (0, SHOWN, ""))
            for name in ("look", "trace"):
                main = tool(name).main
                words = ("--v6", V6, disk, core, script, *(("-c", "log 1") if name == "look" else ()))
                self.assertEqual(self.call(main, *words), (1, "", f"{name}.py: {said}"))
                status, out, error = self.call(main, "--replay", *words)
                self.assertEqual((status, bool(out), error), (0, True, ""))

    def test_a_script_of_eight_lines(self):
        """At one line it would be another run: what is typed at the others would be lost, and no word of it. So no tool plays it, also not
        with --replay, and each says what to do."""
        image, digest = self.image(), hashlib.sha256(read(os.path.join(HI, "image"))).hexdigest()
        typed = self.put("typed", f"; console: image sha256 {digest} core 1200 lines\nrun 100\n".encode())
        other = self.put("other", b"line 0\nhangup 0\nrun 100\ntype line 1\nline 7\ntype a\nhangup 1\nrun 5\n")
        gone = self.put("gone", b"hangup 1\r\nrun 100\n")
        page = ("-o", self.path("page.html"))
        for script, begins in ((typed, f"{typed} was typed at eight lines"), (other, f"{other}: line 5: 'line 7': this run has line 0 alone"),
                               (gone, f"{gone}: line 1: 'hangup 1': this run has line 0 alone")):
            for more in ((), ("--replay",)):
                self.assertEqual(self.run_it(image, script, "--core", "1200", *more), (3, "", f"run.py: {begins}: --eight plays it so\n"))
                for name, words, way in (("look", ("-c", "ps"), "--eight plays it so"), ("page", page, "--eight plays it so"),
                                         ("trace", (), "look.py --eight shows what its log tells")):
                    found = self.call(tool(name).main, "--v6", V6, image, "1200", script, *words, *more)
                    self.assertEqual(found, (1, "", f"{name}.py: {begins}: {way}\n"))
            self.assertEqual(self.run_it(image, script, "--core", "1200", "--eight", "--term", self.path("term")), (0, "", ""))
        self.assertEqual(self.run_it(image, self.put("zero", b"line 0\nhangup 0\nrun 100\n"))[0], 0)

    def test_pages_that_teach_another_way(self):
        """Where a page teaches `v6 run`, which empties the files that it is given, it leads to run.py."""
        for name in ("README.md", "docs/lions/README.md", "docs/manual/commands.md"):
            self.assertRegex(read(os.path.join(TOP, name)).decode(), r"empt(?:ies|ied)[^|]*tools/run\.md\)")

    def test_messages(self):
        """They name the file, the line of the script with its text, and the size of core; and what a disk that shows nothing hasn't."""
        image, script, none = self.image(), os.path.join(HI, "script"), self.path("none")
        for words, status, said in (((none, script), 2, f"{none}: No such file or directory"),
                                    ((image, none), 2, f"{none}: No such file or directory"),
                                    ((image, script, "--core", "63"), 4, "core size: 63 clicks, and 64 to 3968 are wanted"),
                                    ((image, self.put("tabs", b"run 1\n" + 70 * b"\t")), 5,
                                     f"{self.path('tabs')}: line 2: '{15 * (chr(92) + '011')}..': a blank or a tab at its end"),
                                    ((image, self.put("long", b"type " + 300 * b"a")), 5,
                                     f"{self.path('long')}: line 1: 'type {55 * 'a'}..': more than 300 bytes"),
                                    ((image, self.put("log", b"boot 64 0\nend\n")), 5,
                                     f"{self.path('log')}: line 1: 'boot 64 0': a log begins so, and no script"),
                                    ((self.path("log"), script), 6,
                                     f"{self.path('log')}: bad super-block: tools/disk.py check {self.path('log')} tells all faults"),
                                    ((self.put("his.gz", b"\037\213" + bytes(600)), script), 6,
                                     f"{self.path('his.gz')}: bad super-block: it is compressed, and gunzip makes the disk of it")):
            self.assertEqual(self.run_it(*words), (status, "", f"run.py: {said}\n"))
        script, disk = self.put("script", b"run 3000\n"), self.put("disk", read(os.path.join(TOP, "examples", "shell", "image")))
        for path, said in (("/dev/tty8", "the disk has no /dev/tty8"), ("/etc/init", NO_INIT)):
            self.assertEqual(self.call(tool("disk").main, "--v6", V6, "rm", disk, path), (0, "", ""))
            self.assertEqual(self.run_it(disk, script), (0, "", f"run.py: {said}\n"))
        self.assertEqual(self.call(tool("disk").main, "--v6", V6, "put", disk, script, "/etc/init"), (0, "", ""))
        self.assertEqual(self.run_it(disk, script), (0, "", "run.py: the disk's /etc/init can't be executed, so nothing can run on it\n"))

    def test_an_image_that_is_cut(self):
        """It isn't played, since what is missing would be zeros, but where that is said to be meant; zeros alone may be left out."""
        shell = read(os.path.join(TOP, "examples", "shell", "image"))
        cut, script, disk = self.put("cut", shell[:20000]), self.put("script", b"run 100\n"), self.path("disk")
        said = f"run.py: {cut}: it ends at byte 20000, before what its files hold: tools/disk.py check {cut} tells all faults"
        said += "; --damaged plays it with zeros there\n"
        self.assertEqual(self.run_it(cut, script, "--disk", disk), (3, "", said))
        self.assertFalse(os.path.exists(disk))
        self.assertEqual(self.run_it(cut, script, "--disk", disk, "--damaged")[0], 0)
        self.assertEqual(len(read(disk)), DISK_BYTES)
        short = self.put("short", shell.rstrip(b"\0"))
        self.assertEqual(self.run_it(short, script)[::2], (0, ""))

    def test_a_run_that_does_not_begin(self):
        term = self.put("term", b"before")
        bad = self.put("bad", b"walk\n")
        self.assertEqual(self.run_it(self.image(), bad, "--term", term), (5, "", f"run.py: {bad}: line 1: 'walk': no line of a script\n"))
        self.assertEqual(read(term), b"before")
        absent = self.path("no") + "/term"
        self.assertEqual(self.run_it(self.image(), bad, "--term", absent),
                         (3, "", f"run.py: {absent}: No such file or directory\n"))
