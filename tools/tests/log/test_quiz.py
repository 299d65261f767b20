"""log.py ask: the rules of choices against the logs that were worked by hand, and what the quiz says."""
import io
import os
import unittest
import unittest.mock

from tests.common import TOP, Case, read, tool, v6

from v6.log.choices import Ruled
from v6.log.processes import Place, Row
from v6.rows import file as rowfile

log_main = tool("log").main
# Worked by hand. Entry 1 was chosen at 100, the priority of a program. It forks, and its child can run at 0.
FORKED = """boot 100 0
sleep 0 -100 runout
go 1
bare 1
image 1 37 at 1
trap 1
go 1
fork 1 2 at 38
trap 1
go 2
sleep 2 40 wait.2
go 1
end
"""


class Rules(unittest.TestCase):
    def test_the_rows(self):
        """Each choice of the rows' logs, worked by hand, is the one that the rules give."""
        base, kinds = read(os.path.join(TOP, "examples", "hi", "image")), {}
        for name in rowfile.names():
            row = rowfile.Row(name)
            log = None if row.lines["command"] is not None or row.is_end else row.wanted_log(base)
            if not log:
                continue
            table = Ruled()
            for line in log.decode().splitlines():
                entry = table.read(line)
                foretold = table.foretold(entry)
                if foretold:
                    self.assertEqual(foretold[0], line, (name, table.number, foretold[1]))
                    kinds[entry["word"], table.is_open(entry)] = kinds.get((entry["word"], table.is_open(entry)), 0) + 1
                table.apply(entry)
        for kind in (("go", True), ("idle", False), ("in", True), ("out", True), ("sleep", True), ("sleep", False)):
            self.assertGreater(kinds.get(kind, 0), 10, kinds)

    def test_priorities(self):
        """Sixty ticks of use are 50 when the second ends, and 100 + 50 / 16 is 103; sixty more are 100, and 106. A child that has
        never run keeps its 0, and who sleeps the priority of what it sleeps for. Nice comes to it, up to 127."""
        table = Ruled()
        for line in ("boot 200 0", "sleep 0 -100 runout", "go 1", "fork 1 2 at 18", "trap 1", *["tick u"] * 60):
            table.take(line)
        self.assertEqual(table.priority, {0: -100, 1: 103, 2: 0})
        for line in ["tick u"] * 60:
            table.take(line)
        self.assertEqual(table.priority, {0: -100, 1: 106, 2: 0})
        for line in ("nice 1 5", "sleep 1 40 wait.1", "idle", *["tick i"] * 60, "wake wait.1", "go 1"):
            table.take(line)
        self.assertEqual(table.priority, {0: -100, 1: 40, 2: 0})
        table.take("trap 1")  # by now 90 of use are left, and 90 / 16 is 5
        self.assertEqual(table.priority[1], 110)
        table.take("nice 1 20")
        table.take("trap 1")
        self.assertEqual(table.priority[1], 125)
        table.take("nice 1 23")
        table.take("trap 1")
        self.assertEqual(table.priority[1], 127)

    def test_the_page_s_table(self):
        """Entry 3 was chosen last, and these can run, at 100 but entry 7: docs/manual/clock.md."""
        for slots, wanted in (((1, 3, 5), 5), ((1, 3), 1), ((3,), 3), ((1, 5, 7), 7), ((), None)):
            table = Ruled()
            table.chosen, table.rows = 3, {slot: Row(slot, 1, 37, Place("at", 1)) for slot in slots}
            table.priority = {slot: 99 if slot == 7 else 100 for slot in slots}
            self.assertEqual(table.next_choice()[0], "idle" if wanted is None else f"go {wanted}")


class Quiz(Case):
    def asked(self, text, answers, *words):
        with unittest.mock.patch("sys.stdin", io.TextIOWrapper(io.BytesIO(answers), encoding="utf-8")):
            status, shown, error = self.call(log_main, "ask", *words, self.put("log", text.encode()))
        return status, shown.splitlines(), error

    def test_answers(self):
        """The first `go` with two that can run is line 10: entry 2 is at 0, entry 1 at 100."""
        why = "By the rules: the least priority of those that can run is 0, that of entry 2."
        for answer, verdict in (("2", "Right:"), ("go 2", "Right:"), ("1", "No:"), ("nobody", "No:"), ("", "It is")):
            status, shown, error = self.asked(FORKED, answer.encode() + b"\n")
            self.assertEqual((status, error), (0, ""))
            self.assertIn(f"{verdict} `go 2`, process 2 runs. {why}", " ".join(shown))
            self.assertEqual(shown[-1], f"{int(verdict == 'Right:')} of 1 right")
        self.assertIn("line 10 of 13, second 1; entry 1 was chosen last", shown)
        self.assertIn("r     2     2   0    0   37    - at 38      -", shown)
        self.assertIn("free clicks of core: 75 to 100", shown)
        self.assertNotIn("process 2 runs", " ".join(shown[: shown.index("Who runs next? ")]))  # it was hidden

    def test_what_is_no_answer(self):
        for answer in (b"who", b"in 2", b"002", b"\xff\xfe", "\u0662".encode(), b"9" * 5000):
            status, shown, error = self.asked(FORKED, answer + b"\n2\n")
            self.assertEqual((status, error, shown[-1]), (0, "", "1 of 1 right"))
            self.assertEqual(sum(line.startswith("an answer is an entry's number, or `nobody`; ") for line in shown), 1)

    def test_where_answers_end(self):
        ended = ": the input ended before an answer; an empty line shows it"
        for answers, told in ((b"", ended), (b"q\n2\n", "")):
            self.assertEqual(self.asked(FORKED, answers)[1][-1], "no choice was asked for" + told)
        none = "no choice was asked for: from line 11 on two can run at no line, and no process waits to come into core"
        self.assertEqual(self.asked(FORKED, b"2\n", "--from", "11"), (0, [none], ""))
        self.assertEqual(self.asked(FORKED, b"2\n", "--count", "0"), (0, ["no choice was asked for"], ""))
        cut = self.asked(FORKED.replace("end\n", ""), b"2\n")
        self.assertEqual((cut[0], cut[2].split(": ")[2][:11]), (1, "the log end"))

    def test_a_log_that_breaks_the_rules(self):
        status, shown, error = self.asked(FORKED.replace("go 2", "go 1"), b"2\n")
        self.assertEqual((status, shown), (1, ["no choice was asked for"]))
        self.assertEqual(error, "log.py: line 10: it is 'go 1', and by the rules 'go 2': the least priority of those that can run "
                                "is 0, that of entry 2\n")

    def test_page(self):
        """The page's questions about the example crowd, which a run answers."""
        crowd = os.path.join(TOP, "examples", "crowd")
        names = [self.path(name) for name in ("image", "term", "crowd.log", "final")]
        self.disk_of(os.path.join(crowd, "crowd.s"))
        self.assertEqual(v6("run", names[0], "100", os.path.join(crowd, "script"), *names[1:])[0], 0)
        shown = self.asked(read(names[2]).decode(), b"out 1\nin 4\n", "--from", "273", "--count", "2")
        self.assertEqual((shown[0], shown[2]), (0, ""))
        self.assertIn("\n\n" + "\n".join(shown[1]) + "\n```\n", read(os.path.join(TOP, "docs", "tools", "log.md")).decode())

    def test_a_log_that_cannot_be_read_beside_answers(self):
        status, _, error = self.call(log_main, "ask", "-")
        self.assertEqual((status, error.splitlines()[-1]),
                         (2, "log.py: error: ask reads answers from the standard input, so its log is a file"))
