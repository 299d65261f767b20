"""v6 audit over what no row can hold: every line at the edges of its numbers, odd bytes, and files that are none. The answers
are those of docs/manual/log.md and docs/manual/audit.md, worked by hand."""
import fcntl
import os
import shlex
import subprocess
import termios
import threading
import time

from tests.common import TOP, V6, Case, read, v6

LAWFUL, READ_FAULT, WRITE_FAULT, UNLAWFUL, BAD = 0, 2, 3, 9, 10
LIMIT = 2**40  # bytes of the longest log that isn't too long
BEGINS = b"boot 1200 0\nsleep 0 -100 runout\ngo 1\n"  # entry 1 can run, so that `idle` doesn't fit
ENDED = b"boot 64 0\nsleep 0 -100 runout\ngo 1\nexit 1 swap 4000\nidle\nend"
# of each number of a line: a value in its range, the least and the most
NUMBERS = {"S": (1, 0, 49), "K": (3, 0, 39), "C": (1, 0, 65535), "N": (37, 0, 65535), "B": (4000, 4000, 4871),
           "I": (9, 1, 65535), "P": (40, -128, 127), "X": (2, 1, 19), "L": (3, 1, 7), "TIME": (7, 0, 4294967295)}
LINES = """boot {C} {TIME}
go {S}
trap {S}
sleep {S} {P} runin
sleep {S} {P} runout
sleep {S} {P} tout
sleep {S} {P} keys
sleep {S} {P} show
sleep {S} {P} wait.{S}
sleep {S} {P} read.{I}
sleep {S} {P} write.{I}
sleep {S} {P} disk.{S}
sleep {S} {P} keys.{L}
sleep {S} {P} show.{L}
wake wait.{S}
wake read.{I}
wake write.{I}
wake disk.{S}
wake keys.{L}
wake show.{L}
signal {S} {X}
nice {S} {P}
time {TIME}
size {S} {N} at {C}
size {S} {N} swap {B}
size {S} {N} keep
fork {S} {S} at {C}
fork {S} {S} swap {B}
drop {S} {K} plain
drop {S} {K} sticky
bare {S}
text {S} {K} {N} swap {B}
share {S} {K}
image {S} {N} at {C}
image {S} {N} swap {B}
in {S} {C}
out {S} {B}
exit {S} swap {B}
reap {S}"""


def spelt(form, at, text):
    """A line with this text for its number at a place, and numbers in their ranges elsewhere."""
    parts = form.split("{")
    return parts[0] + "".join((text if place == at else str(NUMBERS[name][0])) + rest
                              for place, (name, rest) in enumerate(part.split("}") for part in parts[1:]))


def numbers_of(form):
    return [part.split("}")[0] for part in form.split("{")[1:]]


class Audit(Case):
    def audited(self, name, **more):
        if not more:
            return v6("audit", name)
        done = subprocess.run([*shlex.split(V6), "audit", name], stdout=subprocess.PIPE, **more)
        return done.returncode, done.stdout.decode()

    def told(self, data):
        return self.audited(self.put("log", data))

    def is_line(self, line):
        """Whether the auditor says of a third line that it is one of a log; that it fits is no matter."""
        status, said = self.told(b"boot 1200 0\nsleep 0 -100 runout\n" + line + b"\ngo 1\nend\n")
        self.assertIn(status, (LAWFUL, UNLAWFUL, BAD))
        if status == BAD:
            self.assertEqual(said, "log: line 3 is no log line\n")
        else:
            self.assertNotIn("no log line", said)
        return status != BAD

    def test_numbers_at_their_edges(self):
        for form in LINES.split("\n"):
            for at, name in enumerate(numbers_of(form)):
                _, least, most = NUMBERS[name]
                for number in (least, most):
                    self.assertTrue(self.is_line(spelt(form, at, str(number)).encode()), (form, at, number))
                for number in (least - 1, most + 1, most + 2**16, most + 2**32, most + 2**64):
                    self.assertFalse(self.is_line(spelt(form, at, str(number)).encode()), (form, at, number))

    def test_numbers_as_none_are_written(self):
        for form in LINES.split("\n"):
            for at, name in enumerate(numbers_of(form)):
                good = str(NUMBERS[name][0])
                for text in ("0" + good, "+" + good, "-0", "", "0x1", good + "a", " " + good, good + " ", "1.", "--1"):
                    self.assertFalse(self.is_line(spelt(form, at, text).encode()), (form, at, text))

    def test_words(self):
        for line in (b"idle", b"tick u", b"tick k", b"tick i", b"wake keys", b"wake show", b"wake tout", b"wake runin",
                     b"wake runout", b"panic swap", b"panic zombie", b"panic text", b"end"):
            self.assertTrue(self.is_line(line), line)
            for spoiled in (line + b"\r", line + b" ", b" " + line, line + b"\t", line.upper(), line + b"\0", line[:-1],
                            line + b"x", line.replace(b" ", b"  ") if b" " in line else line + line,
                            line.replace(b"i", b"\xed", 1) + b"\x80"):
                self.assertFalse(self.is_line(spoiled), spoiled)
        for line in (b"", b"\0", b"\t", b"\r", b"\xff", b"walk 1", b"wake wait", b"wake wait.", b"wake disk",
                     b"wake keys.", b"tick x", b"panic core", b"go", b"end 1"):
            self.assertFalse(self.is_line(line), line)

    def test_how_long_a_line_may_be(self):
        for count in (79, 80, 81, 82, 4095, 4096, 4097, 100_000):
            self.assertEqual(self.told(BEGINS + b"x" * count + b"\nend\n"), (BAD, "log: line 4 is no log line\n"))
            self.assertEqual(self.told(BEGINS + b"x" * count), (BAD, "log: line 4 is no log line\n"))
        # a line of 81 bytes without an end is seen before the file's end is: who wrote it need not close it
        read, write = os.pipe()
        os.write(write, BEGINS + b"x" * 81)
        self.assertEqual(self.audited("/dev/stdin", stdin=read, timeout=60)[0], BAD)
        os.close(read)
        os.close(write)

    def test_a_line_of_80_bytes_waits_for_its_end(self):
        """It isn't judged when all of it was read: the 81st byte, a line feed or the end of the file may come."""
        for last in (b"x", b"\n", b""):
            auditor = subprocess.Popen([*shlex.split(V6), "audit", "/dev/stdin"], stdin=subprocess.PIPE, stdout=subprocess.PIPE,
                                       bufsize=0)
            with auditor:
                auditor.stdin.write(BEGINS + b"x" * 80)
                while int.from_bytes(fcntl.ioctl(auditor.stdin, termios.FIONREAD, bytes(4)), "little"):
                    time.sleep(0.001)
                time.sleep(0.1)
                self.assertIsNone(auditor.poll())
                self.assertEqual(auditor.communicate(last), (b"log: line 4 is no log line\n", None))
            self.assertEqual(auditor.returncode, BAD)

    def test_the_first_of_some_faults(self):
        """Of lines at fault the first is named, and how it is at fault; what comes after it is no matter, nor that an end is
        missing."""
        faults = {b"idle\n": UNLAWFUL, b"boot 1200 0\n": UNLAWFUL, b"trap 2\n": UNLAWFUL, b"walk\n": BAD, b"\n": BAD,
                  b"trap 01\n": BAD, b"x" * 81 + b"\n": BAD}
        for first, status in faults.items():
            said = f"log: line 4 is {'no log line' if status == BAD else 'not lawful'}\n"
            for second in faults:
                for rest in (first + second, first + b"trap 1\n" + second + b"end\n", first + second[:-1]):
                    self.assertEqual(self.told(BEGINS + rest), (status, said), rest)
            self.assertEqual(self.told(BEGINS + first + b"end\nend\n"), (status, said), first)
        for first, line, status in ((b"boot 63 0\n", 1, UNLAWFUL), (b"boot 65536 0\n", 1, BAD),
                                    (b"boot 64 0\nsleep 0 -100 runin\n", 2, UNLAWFUL),
                                    (b"boot 64 0\nsleep 0 -100 run\n", 2, BAD),
                                    (b"boot 64 0\nsleep 0 -100 runout\nend\n", 3, UNLAWFUL)):
            said = f"log: line {line} is {'no log line' if status == BAD else 'not lawful'}\n"
            for rest in (b"walk\n", b"go 2\nwalk", b"", b"x" * 81):
                self.assertEqual(self.told(first + rest), (status, said), (first, rest))

    def test_the_last_line(self):
        lawful = ENDED
        for end in (b"", b"\n"):
            self.assertEqual(self.told(lawful + end), (LAWFUL, "lawful: 6 lines\n"))
        for end in (b"\n\n", b"\r\n", b"\n\0", b"\n\n\n"):
            line = 6 if end.startswith(b"\r") else 7
            self.assertEqual(self.told(lawful + end), (BAD, f"log: line {line} is no log line\n"))
        for end in (b"\nend", b"\nidle\n", b"\nboot 64 0\n", b"\n" + lawful):
            self.assertEqual(self.told(lawful + end), (UNLAWFUL, "log: line 7 is not lawful\n"))
        # in the middle of a line, and of a number
        self.assertEqual(self.told(lawful[:-1]), (BAD, "log: line 6 is no log line\n"))
        self.assertEqual(self.told(lawful[: lawful.index(b"00\nidle")]), (BAD, "log: line 4 is no log line\n"))
        self.assertEqual(self.told(lawful[: lawful.index(b"\nidle")]), (UNLAWFUL, "log: line 5 is not lawful\n"))
        self.assertEqual(self.told(b""), (UNLAWFUL, "log: line 1 is not lawful\n"))
        self.assertEqual(self.told(b"\n"), (BAD, "log: line 1 is no log line\n"))

    def test_a_byte_a_call(self):
        """The answer isn't another where a pipe gives one byte at a time."""
        for data, answer in ((ENDED + b"\n", (LAWFUL, "lawful: 6 lines\n")),
                             (BEGINS + b"idle\n", (UNLAWFUL, "log: line 4 is not lawful\n"))):
            read, write = os.pipe()

            def give():
                for byte in data:
                    os.write(write, bytes([byte]))
                    time.sleep(0.001)
                os.close(write)

            giver = threading.Thread(target=give)
            giver.start()
            self.assertEqual(self.audited("/dev/stdin", stdin=read), answer)
            giver.join()
            os.close(read)

    def test_a_run_that_is_judged_while_it_goes_on(self):
        """The log is a pipe between both, which holds less of it than there is. Where the one that reads it ends at a line, the
        run ends for want of a reader."""
        image, log, pipe = os.path.join(TOP, "examples", "hi", "image"), self.path("log"), self.path("pipe")
        script = self.put("script", b"clock 1\nrun 20000\n")
        self.assertEqual(v6("run", image, "1200", script, self.path("term"), log, self.path("final"))[0], 0)
        lines = read(log).splitlines(True)
        self.assertGreater(len(read(log)), 2 * 65536)
        os.mkfifo(pipe)
        for judge, answers in (([*shlex.split(V6), "audit", pipe], ((0, b""), (LAWFUL, b"lawful: %d lines\n" % len(lines)))),
                               (["sed", "4q", pipe], ((WRITE_FAULT, b"write fault: log\n"), (0, b"".join(lines[:4]))))):
            words = [*shlex.split(V6), "run", image, "1200", script, self.path("term"), pipe, self.path("final")]
            with subprocess.Popen(words, stdout=subprocess.PIPE) as run:
                done = subprocess.run(judge, stdout=subprocess.PIPE, timeout=60)
                said = run.communicate(timeout=60)[0]
            self.assertEqual(((run.returncode, said), (done.returncode, done.stdout)), answers)

    def test_where_a_log_is_cut(self):
        """What is left of a line is a line: it may be none of a log, or not fit, or fit; then the next is missing."""
        for cut, answer in ((b"", UNLAWFUL), (b"wake wait.12\n", UNLAWFUL), (b"wake wait.12", UNLAWFUL),
                            (b"wake wait.1", UNLAWFUL), (b"wake wait.", BAD), (b"w", BAD), (b"fork 1 2 at 18", UNLAWFUL),
                            (b"fork 1 2 at 1", UNLAWFUL), (b"fork 1 2 at ", BAD)):
            line = 5 if cut.startswith(b"wake wait.1") or cut.endswith(b"18") else 4
            words = "no log line" if answer == BAD else "not lawful"
            self.assertEqual(self.told(BEGINS + cut), (answer, f"log: line {line} is {words}\n"), cut)

    def test_where_lines_cross_the_pieces_that_are_read(self):
        """Of a long log each line is judged whole, wherever 4,096 bytes end."""
        for more in range(12):
            of_slots = [b"wake wait.%d" % (slot % 10 if slot < more else 10 + slot % 40) for slot in range(200)]
            lines = [b"wake keys"] * 900 + of_slots
            data = BEGINS + b"".join(line + b"\n" for line in lines)
            self.assertGreater(len(data), 2 * 4096)
            self.assertEqual(self.told(data + b"idle\n"), (UNLAWFUL, f"log: line {4 + len(lines)} is not lawful\n"))

    def test_a_file_that_grows(self):
        """What isn't there when the end is read is missing, whatever comes after it then: the answer is that of a log which
        the file held meanwhile. It grows by half lines, of which the first is no line, to 200,000 bytes."""
        name = self.put("log", BEGINS)
        lines, grown, before = [b"wake keys\n"] * 20_000 + [b"exit 1 swap 4000\n", b"idle\n", b"end\n"], 0, 4
        with open(name, "ab", buffering=0) as file:

            def grow():
                nonlocal grown
                for at, line in enumerate(lines):
                    for half in (line[:-2], line[-2:]):
                        file.write(half)
                        grown += 1
                    if at % 50 == 0:
                        time.sleep(0.001)

            grower = threading.Thread(target=grow)
            grower.start()
            while grower.is_alive():
                least = grown
                status, said = self.audited(name)
                if status == LAWFUL:
                    self.assertEqual(said, f"lawful: {3 + len(lines)} lines\n")
                    continue
                self.assertIn(status, (UNLAWFUL, BAD))
                line = int(said.split()[2])
                self.assertEqual(said, f"log: line {line} is {'not lawful' if status == UNLAWFUL else 'no log line'}\n")
                halves = 2 * (line - before) + (status == BAD)
                self.assertLessEqual(least, halves)
                self.assertLessEqual(halves, grown + 1)
            grower.join()
        self.assertGreater(os.path.getsize(name), 200_000)
        self.assertEqual(self.audited(name), (LAWFUL, f"lawful: {3 + len(lines)} lines\n"))

    def test_logs_that_are_too_long(self):
        """A copy of the program in which 2^16 stands for 2^40 answers by the rule of the page, whatever the length is."""
        from judge.compare import too_long

        judge = too_long.judged(shlex.split(V6), 16, self.folder, is_traced=False)
        self.assertGreater(judge.audits, 100)
        self.assertEqual(judge.wrong, [])

    def test_a_sparse_file(self):
        """Of a file of more than 2^40 bytes the first fault is named where it has one: zeros are no line."""
        for data, status, line in ((b"", BAD, 1), (BEGINS, BAD, 4), (BEGINS + b"idle\n", UNLAWFUL, 4), (ENDED, BAD, 6),
                                   (ENDED + b"\nidle\n", UNLAWFUL, 7), (BEGINS + b"wake keys\n" * 10_000, BAD, 10_004)):
            name = self.put("log", data)
            os.truncate(name, LIMIT + 5)
            said = f"log: line {line} is {'no log line' if status == BAD else 'not lawful'}\n"
            self.assertEqual(self.audited(name), (status, said))

    def test_files_that_are_none(self):
        self.assertEqual(self.audited(self.folder), (READ_FAULT, "read fault: log\n"))
        self.assertEqual(self.audited(self.path("none")), (READ_FAULT, "read fault: log\n"))
        self.assertEqual(self.audited("/dev/zero"), (BAD, "log: line 1 is no log line\n"))
        self.assertEqual(self.audited("/dev/null"), (UNLAWFUL, "log: line 1 is not lawful\n"))

    def test_a_report_that_fails(self):
        """It is a write fault where the audit was done, and else the status stays."""
        lawful = self.put("lawful", ENDED)
        for name, wanted in ((lawful, WRITE_FAULT), (self.put("cut", BEGINS), UNLAWFUL), ("/dev/zero", BAD)):
            with open("/dev/full", "wb") as full:
                self.assertEqual(subprocess.run([*shlex.split(V6), "audit", name], stdout=full).returncode, wanted)
