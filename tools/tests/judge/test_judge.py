"""What the programs of judge/ make and judge of a terminal of eight lines, without the reference: that one is put in its place."""
import os
import random
import re
import subprocess
import sys
import tempfile
import types
import unittest
import unittest.mock

from tests.common import TOP, Case
from tests.pages import broken_links

from judge.compare import definition, spoiled_logs, too_long
from judge.fuzz import cases as fuzz_cases
from judge.fuzz import hosts as fuzz_hosts
from judge.fuzz import judge as fuzz_judge
from judge.fuzz import row as fuzz_row
from judge.random import script as random_script
from judge.random import spoil
from speed import count, instructions, tables
from v6.rows import file as rowfile
from v6.run import script as scriptfile

LINES = [f"term.{line}" for line in range(1, 8)]
MANY = 300  # seeds of a test


RUN, RUN8, RUN2 = fuzz_cases.RUN, fuzz_cases.RUN8, fuzz_cases.RUN2


def is_good(line):
    """Whether the tools read a line of a script."""
    try:
        list(scriptfile.ticks_of(line + b"\n"))
        return True
    except scriptfile.ScriptError:
        return False


class Scripts(unittest.TestCase):
    def test_words_of_lines(self):
        """Of those that are none the tools take what is too long, and what ends with a carriage return, which is dropped."""
        for line in (b"pace 0", b"pace 999999999", b"disk 000000001", b"line 0", b"line 7", b"hangup 0", b"hangup 7"):
            self.assertTrue(is_good(line), line)
        good = {line for line in random_script.NO_LINES if is_good(line) and len(line) <= 300}
        self.assertEqual(good, {b"run 5\r", b"type a\r", b"\r"})

    def test_random_scripts(self):
        """All that is made at random is a line of a script, or one that was put there to be none."""
        words = set()
        for seed in range(MANY):
            for lines in (random_script.random_script(random.Random(seed)).lines, spoil.random_events(random.Random(seed))):
                bad = {line for line in lines if not is_good(line)}
                self.assertLessEqual(bad, set(random_script.NO_LINES))
                words |= {line.partition(b" ")[0] for line in lines if line not in bad}
        self.assertLessEqual({b"disk", b"pace", b"line", b"hangup"}, words)


class Cases(unittest.TestCase):
    def test_the_kind_lines(self):
        """Most are under `run8`; a seed gives the same again; the disk has the devices of the lines, under their names."""
        commands = []
        for seed in range(MANY // 5):
            case, again = (fuzz_cases.case_of(seed, "lines") for _ in range(2))
            self.assertEqual(vars(case), vars(again))
            self.assertTrue(all(map(is_good, case.lines)), seed)
            commands.append(case.command)
            for line in range(1, 8):
                inode, name = case.image[1248 + 32 * (line - 1) :][:10], case.image[32832 + 16 * (line - 1) :][:16]
                self.assertEqual(inode, b"\xb6\xa1\1\0\0\0\0\0" + bytes([line, 0]))
                self.assertEqual(name, bytes([7 + line, 0]) + b"tty%d".ljust(15, b"\0") % line)
        self.assertEqual(set(commands), {RUN, RUN8})
        self.assertGreater(commands.count(RUN8), len(commands) / 2)

    def test_the_kind_slow(self):
        """Each has a slow disk and a paced terminal from near its start on; both commands come, and programs of all sorts."""
        commands, sorts = set(), set()
        for seed in range(MANY // 3):
            case = fuzz_cases.case_of(seed, "slow")
            self.assertLessEqual({line for line in case.lines if not is_good(line)}, set(random_script.NO_LINES))
            self.assertLessEqual({b"disk", b"pace"}, {line.partition(b" ")[0] for line in case.lines if is_good(line)})
            self.assertLess(scriptfile.slots_of(case.script()), 20_000)
            commands.add(case.command)
            sorts.add(case.sort)
        self.assertEqual(commands, {RUN, RUN8})
        self.assertLessEqual({"", "Case", "ExecCase", "PipeCase", "SignalCase"}, sorts)

    def test_the_kind_two(self):
        """All are under `run2` with a second image, which is another disk than the first; a seed gives the same again."""
        seconds = set()
        for seed in range(MANY // 10):
            case, again = (fuzz_cases.case_of(seed, "two") for _ in range(2))
            self.assertEqual(vars(case), vars(again))
            self.assertEqual((case.command, case.seconds(), case.others()), (RUN2, ("image2",), (case.second,)))
            self.assertIn(b"rk1", case.image)
            seconds.add(case.second)
            self.assertEqual(case.with_(command=RUN).others(), ())
        self.assertGreater(len(seconds), MANY // 20)

    def test_all_kinds(self):
        self.assertEqual(set(fuzz_cases.MAKERS), set(fuzz_cases.KINDS))
        self.assertEqual(set(fuzz_row.PAGES), set(fuzz_cases.KINDS))

    def test_other_cases_over_lines(self):
        """A program finds other lines under the console's name, and no line that the disk hasn't."""
        image = b"/dev/tty8\0" * 20 + b"tty3\0" + b"tty5\0"
        made = fuzz_cases.on_lines(random.Random(1), fuzz_cases.Case(0, "disk", image))
        self.assertEqual(made.command, RUN8)
        self.assertEqual(len(made.image), len(image))
        self.assertEqual(set(re.findall(rb"/dev/tty(.)\0", made.image)), {b"3", b"5", b"8"})
        alone = fuzz_cases.on_lines(random.Random(1), fuzz_cases.Case(0, "disk", b"/dev/tty8\0"))
        self.assertEqual(alone.image, b"/dev/tty8\0")

    def test_hosts(self):
        """Each file of a line may fail under `run8`, those of the second disk under `run2`, and none of these under `run`."""
        def failing(command):
            hosts = [fuzz_hosts.random_host(random.Random(seed), command) for seed in range(MANY)]
            return {name for host in hosts for name in (*host.kinds, *host.same)}

        self.assertLessEqual(set(LINES), failing(RUN8))
        self.assertLessEqual({"image2", "final2"}, failing(RUN2))
        self.assertFalse({*LINES, "image2", "final2"} & failing(RUN))

    def test_lines_of_a_second_image(self):
        """A row of a case with two disks gives the second one again."""
        cases = [fuzz_cases.case_of(seed, "two") for seed in range(MANY // 30)]
        base = fuzz_cases.read(fuzz_cases.HI)
        for case in cases:
            head, *lines = fuzz_row.second_lines(case) or [None]
            self.assertEqual(head == "second", case.command[0] == "run2")
            if head:
                self.assertEqual(bytes(fuzz_row.Read("\n".join(lines)).image(base)), case.second)
        self.assertIn("run2", [case.command[0] for case in cases])


class Judge(unittest.TestCase):
    def test_files(self):
        """They are opened in the order of the manual, and a report calls the port of a line otherwise than its file."""
        self.assertEqual(fuzz_judge.written(RUN), ["term", "log", "final"])
        self.assertEqual(fuzz_judge.written(RUN8), ["term", *LINES, "log", "final"])
        self.assertEqual(fuzz_judge.written(RUN2), ["term", "log", "final", "final2"])
        self.assertEqual(fuzz_judge.written(fuzz_cases.MEMORY), ["final"])
        for name, port in (("term", "term"), ("term.1", "line1"), ("term.7", "line7"), ("log", "log"), ("final", "final"),
                           ("final2", "second")):
            self.assertEqual(fuzz_judge.port_of(name), port)

    def outcome(self, shown):
        """What a reference comes to whose lines have shown this."""
        lines = [types.SimpleNamespace(shown=bytearray(data)) for data in shown]
        unix = types.SimpleNamespace(lines=lines, stores=[None])
        run = types.SimpleNamespace(log=["end"], u=unix, memory=lambda: (b"", b"", b"", b""))
        return fuzz_judge.Outcome(0, b"", run)

    def differ(self, shown, **files):
        """How it differs from files in which nothing is shown but what is said here."""
        names = {"term": b"", "log": b"end\n", "final": b"", **dict.fromkeys(LINES, b"" if len(shown) > 1 else None), **files}
        with unittest.mock.patch.object(fuzz_judge, "store_differences", lambda *_: []):
            found = fuzz_judge.run_differences(fuzz_cases.Case(0, "lines"), fuzz_judge.Ran(0, b"", names), self.outcome(shown))
            return [line.partition(":")[0] for line in found]

    def test_terminals(self):
        """Each line's bytes count, and a run of one line makes no file of another."""
        self.assertEqual(self.differ([b""] * 8), [])
        self.assertEqual(self.differ([b"a"], term=b"a"), [])
        for line in range(1, 8):
            shown = [b"" if other != line else b"hi" for other in range(8)]
            self.assertEqual(self.differ(shown, **{f"term.{line}": b"hi"}), [])
            self.assertEqual(self.differ(shown), [f"terminal {line}"])
            self.assertEqual(self.differ(shown, term=b"hi"), ["terminal 0", f"terminal {line}"])
            self.assertEqual(self.differ([b""], **{f"term.{line}": b""}), [f"terminal {line}"])

    def test_a_second_image(self):
        """Its faults come after the first image's and before the script's, and of both disks there may be 65,535 inodes."""
        def check(image, most=4000, name="image"):
            return f"{name}: bad" if image == b"bad" else f"{name}: long" if int(image) > most else None

        disk = types.SimpleNamespace(check=check, Blocks=lambda image: types.SimpleNamespace(isize=int(image)))
        cases = ((b"bad", [None], 6, b"image: bad\n"), (b"10", [None], 2, b"read fault: second\n"),
                 (b"10", [b"bad"], 12, b"second image: bad\n"), (b"10", [b"4873"], 12, b"second image: long\n"),
                 (b"96", [b"4000"], 12, b"second image: 65536 nodes in all\n"), (b"95", [b"4000"], 2, b"read fault: script\n"),
                 (b"4001", [b"95"], 6, b"image: long\n"), (b"96", [], 2, b"read fault: script\n"))
        with unittest.mock.patch.object(fuzz_judge, "modules", lambda: (disk,)):
            for image, others, *wanted in cases:
                self.assertEqual(fuzz_judge.refused(image, 64, None, others)[0][:2], tuple(wanted))

    def test_names_that_are_too_long(self):
        """A name of 254 letters can be opened, and with two more none can: that is the fault of line 1."""
        said = []

        def answered(_, status, report):
            said.append((status, report))
            return []

        with unittest.mock.patch.multiple(fuzz_judge, refused=lambda *_: (None, []), answered=answered,
                                          reference_run=lambda *_: fuzz_judge.Outcome(0, b"", None)):
            for letters, lines, wanted in ((253, 8, (0, b"")), (254, 8, (3, b"write fault: line1\n")), (254, 1, (0, b"")),
                                           (256, 8, (3, b"write fault: term\n"))):
                list(fuzz_judge.named_case(fuzz_cases.Case(0, "command"), None, ("image", "1200", "script"),
                                           ["x" * letters, "log", "final2"], lines))
                self.assertEqual(said.pop(), wanted)
            list(fuzz_judge.named_case(fuzz_cases.Case(0, "command", second=b""), None, ("image", "1200", "script", "image2"),
                                       ["term", "log", "other", "x" * 256]))
            self.assertEqual(said.pop(), (3, b"write fault: second\n"))


class Kept(Case):
    def test_a_row_of_lines(self):
        """A case that fails is kept with what each terminal must show."""
        store = types.SimpleNamespace(nodes={}, room=3)
        lines = [types.SimpleNamespace(shown=b"hi\n" if line in (0, 3) else b"") for line in range(8)]
        run = types.SimpleNamespace(log=["end"], u=types.SimpleNamespace(lines=lines, stores=[store]))
        case = next(case for seed in range(MANY) if (case := fuzz_cases.case_of(seed, "lines")).command == RUN8)
        with unittest.mock.patch.object(fuzz_row, "reference_run", lambda *_: fuzz_judge.Outcome(0, b"", run)):
            text = fuzz_row.row_of(case, [], fuzz_cases.read(fuzz_cases.HI))
        row = fuzz_row.Read(text)
        self.assertEqual(row.command(), " ".join(case.words()))
        self.assertEqual(row.terms, [b"hi\n", b"", b"", b"hi\n", b"", b"", b"", b""])
        self.assertEqual(row.image(fuzz_cases.read(fuzz_cases.HI)).ljust(len(case.image), b"\0"), case.image)
        self.assertEqual(row.script, case.script())


class Logs(unittest.TestCase):
    def test_other_words(self):
        """Channels of lines become others, with their number."""
        self.assertEqual(spoiled_logs.others("keys.3"), ("show.3", "wait.3"))
        self.assertEqual(spoiled_logs.others("show.7"), ("keys.7", "read.7"))
        self.assertIn("show", spoiled_logs.others("keys"))
        self.assertEqual(spoiled_logs.others("end.1"), ())

    def test_cases(self):
        """Of all kinds of the fuzzer that run a disk; each makes the files that its command reads."""
        self.assertEqual({"host", "command", *spoiled_logs.FUZZED}, set(fuzz_cases.KINDS))
        for kind in spoiled_logs.FUZZED:
            with tempfile.TemporaryDirectory() as folder:
                case = spoiled_logs.FuzzCase(1, kind)
                case.write(folder)
                self.assertEqual(sorted(os.listdir(folder)), ["image", *["image2"] * case.second, "script"])
                self.assertEqual(case.second, case.command == "run2")

    def test_limit_of_a_program(self):
        """It becomes another where code loads it; a program is refused in which it stands otherwise, or isn't loaded."""
        number, near = ((2**40 + more).to_bytes(8, "little") for more in (1, 0))
        program = b"\x90\x48\xbb" + number + b"\x48\x89\xc3\x49\xbc" + number
        small = program.replace(number, (2**20 + 1).to_bytes(8, "little"))
        self.assertEqual(too_long.shortened(program, 2**20), small)
        for other in (program + number, small, b"", program + b"\x48\xb8" + near):
            with self.assertRaises(ValueError):
                too_long.shortened(other, 2**20)


LOADS = """import importlib, sys
sys.path.insert(0, sys.argv[1])
for name in sys.argv[2:]:
    print(name, repr(importlib.import_module(name).__doc__))
"""


class Programs(unittest.TestCase):
    def test_each_begins(self):
        """Each file can be loaded, in another process, since some set what tools have; one that is a program can be called by its
        name, as its text says."""
        files = [os.path.relpath(os.path.join(place, name), TOP) for folder in ("judge", "speed") for place, _, names in os.walk(os.path.join(TOP, folder))
                 for name in names if name.endswith(".py") and name != "__init__.py"]
        done = subprocess.run([sys.executable, "-c", LOADS, TOP, *(file[:-3].replace("/", ".") for file in files)], capture_output=True, text=True)
        self.assertEqual((done.returncode, done.stderr), (0, ""))
        texts = dict(line.split(" ", 1) for line in done.stdout.splitlines())
        for file, text in zip(files, texts.values(), strict=True):
            source = fuzz_cases.read(os.path.join(TOP, file))
            is_program = source.startswith(b"#!")
            self.assertEqual((b"__main__" in source, os.access(os.path.join(TOP, file), os.X_OK)), (is_program, is_program), file)
            self.assertTrue(not is_program or file in text, file)


class Pages(unittest.TestCase):
    def test_each_program_is_told(self):
        """On the page of its folder, whose links lead somewhere."""
        for folder in ("judge", "speed"):
            page = fuzz_cases.read(os.path.join(TOP, folder, "README.md")).decode()
            self.assertEqual(broken_links("..", folder, "README.md"), [])
            for place, _, names in os.walk(os.path.join(TOP, folder)):
                for name in names:
                    file = os.path.join(place, name)
                    if name.endswith(".py") and os.access(file, os.X_OK):
                        self.assertIn(f"`{os.path.relpath(file, os.path.join(TOP, folder))}", page)


class Speed(unittest.TestCase):
    def test_programs_of_tables(self):
        """Each can be assembled, and fits into the one block that it gets; a table that isn't there is refused with what the program is for."""
        sources = [one for one in vars(tables).values() if isinstance(one, str) and one.startswith(("\t", "1:"))]
        sources += [tables.children(48, tables.SLEEPS) + tables.MEMORY, tables.executes(arguments=50), tables.writes(4), tables.writes_few(29),
                    *tables.CROWD.values(), *(source for _, source in instructions.LOOPS), *map(instructions.repeated, instructions.ONES)]
        for source in sources:
            self.assertLess(len(count.assembled(source)), 512, source)
        self.assertGreater(len(sources), 60)
        self.assertEqual(instructions.written("mov *$700,r1"), "MOV @#700,R1")
        with self.assertRaises(SystemExit) as ended:
            count.main(["nothing", sys.executable])
        self.assertIn("speed/count.py WHAT COMMAND", str(ended.exception))

    def test_what_is_counted(self):
        """The second half alone, by the rounds in it: what valgrind counts is put in its place."""
        def counted(words, folder):
            with open(f"{folder}/script", encoding="ascii") as script, open(f"{folder}/log", "w", encoding="ascii") as log:
                slots = sum(int(line.split()[1]) for line in script)
                log.write("in 1\nout 1\n" * (slots // 100))
            return 1000 + 7 * slots

        run = count.Run(tables.GETPID, 600, before="run 4\n")
        with unittest.mock.patch.object(count, "counted", counted):
            self.assertEqual(count.cost("v6", run, 300), 14)
            self.assertEqual(count.difference("v6", run, "in "), (4200, 6))
        self.assertEqual(str(count.Row("a name", 14, 80)), "     14.0    80                a name")


class Definition(Case):
    def test_rows_of_the_auditor(self):
        """The definition as it stands names the line that each row names, which was worked by hand from the manual."""
        auditor, tried = definition.Auditor(), 0
        for name in sorted(os.listdir(os.path.join(rowfile.DATA, "rows", "audit"))):
            row = rowfile.Row(f"audit/{name}")
            if row.command() not in ("audit script", "audit empty"):
                continue
            lines = row.script.decode().split("\n") if row.command() == "audit script" else [""]
            lines = lines if lines[-1] else lines[:-1]
            found = auditor.first_fault(lines)
            said = re.fullmatch(rb"log: line (\d+) is (not lawful|no log line)\n|lawful: (\d+) lines\n", row.lines["report"])
            wanted = said[1] and int(said[1]), said[3] and int(said[3])
            self.assertEqual((found, len(lines) if found is None else None), wanted, name)
            if found is not None and found <= len(lines):
                entry = definition.entry_of(lines[found - 1])
                is_line = entry is not None and auditor.names["IsInRange"](entry)
                self.assertEqual(is_line, said[2] == b"not lawful", name)
            tried += 1
        self.assertGreater(tried, 150)

    def test_names_that_definitions_bind(self):
        """A parameter, a name of `let` or of a function may be that of another definition, or a word of Python."""
        self.put("entry", b"pub const LAST: u8 = 4;\n")
        self.put("It.antt", """use Some.where as place
slots : List ℕ
slots = range_with_len 0 LAST

abbrev pub longer : List ℕ → ℕ → Bool
longer slots lambda = nat_lt lambda (length slots)

pub both : ℕ → Bool
both n = longer slots n && (let slots : List ℕ = [] in not (longer slots n)) && list_any (λ slots. slots == n) slots
""".encode())
        with unittest.mock.patch.multiple(definition, TOP=self.folder, FILES=("../It",), CONSTANTS=("../entry",)):
            os.mkdir(self.path("crates"))
            names = definition.Definitions().compiled()
        self.assertEqual([names["both"](n) for n in range(6)], [True] * 4 + [False] * 2)
