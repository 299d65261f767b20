"""Pages of page.py in a browser without a window: they open without an error or a request, and show what look.py shows."""
import re

from tests.page.pagebrowser import PANELS, Browsed
from tests.log.test_log import TEXTS

from v6.debug.views import HEAD
from v6.log.processes import Table

BOTTOM = "(one) => one.getBoundingClientRect().bottom"
HIDDEN = "hidden in the quiz: it is known after the next choice alone"
CALLS = {"-": "", "runin": "", "runout": "", "disk": "", "keys": "read(..)", "read": "read(..)", "show": "write(..)", "write": "write(..)",
         "wait": "wait(..)", "tout": "sleep(..)"}  # by what a process waits for
EVIL = "</script><script>alert(1)</script>\"'&<img src=x onerror=alert(2)>"


class Opened(Browsed):
    def same(self, looker, line):
        """What stands in the panels at a line is what look.py shows there. Where nobody is chosen, it is who runs."""
        self.go(line)
        self.assertEqual(self.text("head"), looker.lines_of(f"line {line}")[0])
        self.assertEqual([" ".join(row[:-1]).split() for row in self.table()], [row.split() for row in looker.lines_of("ps")[1:]], line)
        for name in ("core", "swap", "texts"):
            self.assertEqual(self.lines(name), looker.lines_of(name), line)
        if getattr(looker.moment.process(looker.moment.whole.running() or 1), "parts", ()):  # it has code and a stack
            self.assertEqual(self.process(), looker.lines_of("process"), line)
        self.same_calls(looker, line)

    def same_calls(self, looker, line):
        """The call of each process is that of memory at the last line of a moment, and else that of what the process waits for."""
        for row in self.table():
            told = [one[11:] for one in looker.lines_of(f"process {row[2]}") if one.startswith("call ")] if row[1] != "0" else []
            if looker.moment.at == looker.moment.lines and told:
                self.assertEqual(row[-1], told[0].removesuffix(" has begun, and isn't done"), (line, row))
            else:
                self.assertEqual(row[-1], CALLS[row[10].partition(".")[0]], (line, row))

    def test_panels(self):
        """At 100 random lines of 20 runs the panels have what look.py shows there, and at some of a lesson's."""
        for words in (self.pair(), *self.rows(20).values()):
            self.made(*words)
            self.open()
            looker = self.looker(words)
            for line in self.random.sample(range(1, len(looker.history.run.log) + 1), 5):
                self.same(looker, line)

    def test_forwards_and_back(self):
        """A step forwards and one back give the same bytes of each panel, at each line."""
        self.made(*self.pair())
        self.open()
        self.forwards_and_back(1, 38)
        self.assertEqual(self.line(), 1)

    def test_steps(self):
        """Keys go by lines, choices, calls and words; the address names a line, and is kept up."""
        marks = self.put("marks", f"18 Who is woken?\n30 {EVIL}\n".encode())
        self.made(*self.pair(), "--marks", marks, "--title", EVIL)
        self.open("#line=18")
        self.assertEqual((self.line(), self.text("raw")), (18, "wake keys"))
        self.browser.key("c")
        self.assertEqual(self.text("raw"), "go 1")
        self.browser.key("a")
        self.assertEqual((self.line(), self.text("call")), (20, '61 [1 /etc/init] read(0, 063, 100) = 4 "one\\n", after 55 slots for keys'))
        self.browser.key("A", shift=True)
        self.assertEqual(self.line(), 13)
        self.value("document.getElementById('word').value = 'WRITE('; page.search(1)")
        self.assertEqual((self.line(), self.text("found")), (24, "line 24"))
        self.value("document.getElementById('word').value = '2'; page.search(-1)")
        self.assertEqual(self.text("words"), "process 2 (/etc/init) waits for keys, at priority 10")
        self.value("document.querySelectorAll('#marks button')[1].click()")
        self.assertEqual(self.line(), 30)
        self.assertIn(EVIL, self.text("marks"))
        self.assertEqual((self.value("document.title"), self.value("document.images.length")), (EVIL, 0))
        self.assertEqual(self.value("new Promise((done) => setTimeout(() => done(location.hash), 400))"), "#line=30")

    def test_words_of_the_log(self):
        """A search for a word of the log finds its lines alone, and not others that have it; within few moments a head is right too."""
        words = self.crowd()
        self.made(*words, "--moments", "20")
        self.open()
        looker = self.looker(words)
        self.browser.keys("/out")
        self.browser.key("Enter")
        self.assertEqual((self.line(), self.text("raw")), (82, "out 1 4010"))
        self.browser.key("n")
        self.assertEqual((self.line(), self.text("found")), (82, "not found after this line"))
        own = self.value("[...Array(page.run.lines).keys()].map((one) => one + 1).filter((one) => page.run.moment(one).isExact)")
        self.assertGreater(len(own), 10)
        for line in (82, *self.random.sample(own, 4)):
            self.value(f"page.go({line})")
            head, whole = self.text("head"), looker.lines_of(f"line {line}")[0]
            self.assertEqual(*(re.sub(r" \(of [^)]*\)", "", one.partition(", ")[2]) for one in (head, whole)), line)
            self.assertEqual(head.startswith("slot "), line in own, line)
            self.assertLessEqual(looker.moment.slots, int(head.split()[1]) if line in own else looker.history.last)

    def test_processes_between_moments(self):
        """Where core wasn't looked at, a process is as it was in the slot that is named, or wasn't there; else it is who runs then."""
        words = self.crowd()
        self.made(*words, "--moments", "12")
        self.open()
        looker, seen = self.looker(words), set()
        for line in (9, 14, *self.random.sample(range(1, len(looker.history.run.log) + 1), 6)):
            self.value(f"page.go({line})")
            self.choose("")
            after, slot = self.value("[page.run.moment(page.line).isExact, page.run.moment(page.line).slot]")
            looker.go(slot)
            if after:
                is_within = self.lines("process")[0].startswith("after all lines of the moment")
                self.assertEqual(self.process()[is_within:], looker.lines_of("process"), line)
                continue
            for row in self.table()[1:]:
                self.value(f"[...document.querySelectorAll('#ps tr')].find((one) => one.cells[1].textContent === '{row[1]}')"
                                   ".click()")
                said, *shown = self.lines("process")
                was_there = looker.moment.slot_of(int(row[2])) is not None
                is_as = f"as in slot {slot}" if was_there else f"process {row[2]} wasn't there in slot {slot}"
                self.assertEqual(said.partition(",")[0], is_as, line)
                if was_there:
                    self.assertEqual(shown, looker.lines_of(f"process {row[2]}")[: len(shown)], line)
                seen.add(was_there)
        self.assertEqual(seen, {True, False})

    def test_quiz(self):
        """The next choice is nowhere on the page until it is asked for."""
        self.made(*self.pair())
        self.open("#line=18")
        self.browser.key("q")
        self.assertEqual((self.line(), "19" in self.text("log")), (18, False))
        self.assertIn("Who runs", self.text("question"))
        for slot in ("", "1", "2"):  # memory is known after the choice, and would tell who runs then
            self.choose(slot)
            self.assertEqual(self.text("process") + self.text("code") + self.text("stack") + self.text("area"), HIDDEN + "\n")
        self.choose("")
        self.assertEqual((self.text("call"), self.text("term")), (HIDDEN, ""))  # what was typed came with the lines of the moment
        self.value("document.getElementById('answer').click()")
        self.assertIn("process 1 (/etc/init) runs. A choice", self.text("question"))
        self.assertIn("state      R: runs", self.text("process"))
        self.assertEqual(self.text("term"), "ONE\n")
        self.value("document.getElementById('another').click()")
        self.assertEqual(self.line(), 20)
        self.assertIn('read(0, 063, 100) = 4', self.text("call"))  # which has ended with this line
        self.browser.key("q")
        self.assertIn("state      R: runs", self.text("process"))

    def test_all_codes(self):
        """A terminal that shows each code: letters and signs stand there as they are, and the others as numbers."""
        log = self.put("log", b"boot 100 7\nsleep 0 -100 runout\ngo 1\nidle\nend\n")
        self.made("--log", log, "--term", self.put("term", bytes(range(128)) + b"<script>alert(1)</script>&amp;\r\n"))
        self.open()
        wanted = "".join(chr(code) if code in (9, 10) or 32 <= code < 127 else f"\\{code:03o}" for code in range(128))
        self.assertEqual(self.text("term"), wanted + "<script>alert(1)</script>&amp;\n")
        self.assertTrue(self.value("[...document.querySelectorAll('#p-call, #of-memory')].every((one) => one.hidden)"))
        self.assertIn("registers", self.text("note"))

    def test_odd_names_and_files(self):
        """Names of programs and files, arguments and what files hold, with signs of HTML and all codes, are text in each panel."""
        self.made(*self.odd())
        self.open()
        calls = self.value("Array.from({ length: page.run.lines }, (_, one) => (page.go(one + 1), page.run.one('call')))")
        for call in ('creat("<img src=x>&o", 0666) = 1', 'write(0, " !\\"#$%&\'()*+,-./0123456789:;<=>?", 32) = 32',
                     '32) = 32 "@ABCDEFGHIJKLMNOPQRSTUVWXYZ[\\\\]^_"', '32) = 32 "`abcdefghijklmnopqrstuvwxyz{|}~\\177"'):
            line = next(line for line, one in enumerate(calls, 1) if one.endswith(call))
            self.value(f"page.go({line})")
            self.assertEqual(self.text("call"), calls[line - 1])
        self.browser.key("End")
        self.assertIn(" !\"#$%&'()*+,-./0123456789:;<=>?@ABCDEFGHIJKLMNOPQRSTUVWXYZ[\\]^_", self.text("term"))
        self.assertIn('process 1 (/<img src=x>&"\') runs', self.text("head"))
        self.assertTrue(self.table()[1][11].startswith('<img src=x>&\\"\' /<img src=x>&'), self.table())
        self.assertIn('/<img src=x>&"\'', self.text("process"))
        self.assertIn('process 1 (/<img src=x>&"\')', self.text("core"))
        self.assertEqual(self.value("document.querySelectorAll('img, script').length"), 1)  # the page's own program

    def test_printed(self):
        """On paper all is on one sheet, A4 or letter, upright; of the terminal it is the end."""
        log = self.put("log", b"boot 100 7\nsleep 0 -100 runout\ngo 1\n" + b"trap 1\nidle\ngo 1\n" * 20 + b"end\n")
        for words, last in ((self.pair(), "ONE\n"), (("--log", log, "--term", self.put("term", b"%d\r\n" * 99 % (*range(99),))), "98\n")):
            self.made(*words)
            self.addCleanup(self.browser.size, 1200, 900)
            for width, height in ((718, 1047), (740, 980)):  # what their margins leave, in points of a screen
                self.browser.size(width, height, media="print")
                self.open("#line=20")
                self.assertLess(self.value(f"Math.max(...[...document.querySelectorAll('#panels, #panels > section')].map({BOTTOM}))"),
                                height)
                self.assertTrue(self.text("term").endswith(last))
                term, end = self.value(f"[...document.querySelectorAll('#term, #end')].map({BOTTOM})")
                self.assertAlmostEqual(term, end, delta=1)
            pdf = self.browser.printed()
            self.assertEqual((pdf[:5], len(re.findall(rb"/Type\s*/Page\b", pdf))), (b"%PDF-", 1))

    def test_many_lines(self):
        """Far steps in a longer log come to what is there by single steps."""
        log = self.put("log", b"boot 100 7\nsleep 0 -100 runout\ngo 1\n" + b"trap 1\nidle\ngo 1\n" * 1700 + b"end\n")
        self.made("--log", log)
        self.open("#line=5100")
        far = self.value(PANELS)
        self.assertIn("line 5100 of 5104", far)
        self.value("page.go(1); for (let one = 0; one < 5099; one += 3) page.run.seek(one + 1); page.go(5100)")
        self.assertEqual(self.value(PANELS), far)
        self.value("page.go(4097); page.go(5100)")
        self.assertEqual(self.value(PANELS), far)

    def raw(self):
        """The lines of the log."""
        return self.value("Array.from({ length: page.run.lines }, (_, one) => page.run.raw(one + 1))")

    def test_seconds_and_choices(self):
        """S goes by the ticks with which seconds end, each sixtieth, and C by choices; with Shift back."""
        self.made(*self.crowd(1900), "--moments", "2")
        self.open()
        raw = self.raw()
        ticks = [line for line, text in enumerate(raw, 1) if text.startswith("tick ")]
        for key, lines in (("s", ticks[59::60]), ("c", [line for line, text in enumerate(raw, 1) if text.split(" ")[0] in ("go", "idle")])):
            self.assertGreater(len(lines), 2)
            self.browser.key("Home")
            found = []
            for _ in lines:
                self.browser.key(key)
                found.append(self.line())
            self.assertEqual(found, lines)
            for line in reversed(lines[:-1]):
                self.browser.key(key.upper(), shift=True)
                self.assertEqual(self.line(), line)

    def test_drag(self):
        """The cursor goes to where the picture is pressed, and follows the mouse until it is let go."""
        self.made(*self.pair(), "--moments", "2")
        self.open()
        left, top, width = self.value("(({ left, top, width }) => [left, top, width])(document.querySelector('#paper svg').getBoundingClientRect())")
        first, lanes, whole = self.value("[page.run.head.left_of_lanes, page.run.head.lanes, page.width]")

        def place(line):
            return left + (first + (line - 0.5) * lanes / 39) * width / whole, top + 90

        for kind, to, is_held, line in (("Pressed", 20, True, 20), ("Moved", 30, True, 30), ("Moved", 5, True, 5), ("Released", 5, False, 5),
                                        ("Moved", 25, False, 5)):
            self.browser.mouse(kind, *place(to), is_held)
            self.assertEqual(self.line(), line, (kind, to))
        x = self.value("document.querySelector('#paper svg').lastChild.getAttribute('x')")
        self.assertAlmostEqual(float(x), first + 4 * lanes / 39, places=3)  # where the picture has line 5

    def test_slider(self):
        """The slider goes by its own keys; a letter steps from there too, as by a call."""
        self.made(*self.pair(), "--moments", "2")
        self.open("#line=18")
        self.value("document.getElementById('cursor').focus()")
        self.browser.key("ArrowRight")
        self.assertEqual(self.line(), 19)
        self.browser.key("C", shift=True)
        self.assertEqual((self.raw()[self.line() - 1].split(" ")[0], self.line() < 19), ("idle", True))
        self.browser.key("Home")
        self.assertEqual(self.line(), 1)
        self.browser.size(360, 800)
        self.addCleanup(self.browser.size, 1200, 900)
        for place, at in (("#p-ps .scroll", 1), ("#term", 2)):  # of which the first alone has no room for all
            self.value(f"document.querySelector('{place}').focus()")
            self.browser.key("ArrowRight")
            self.assertEqual(self.line(), at)
        self.value("page.go(1); document.getElementById('word').focus()")
        self.browser.keys("c")
        self.assertEqual((self.line(), self.value("document.getElementById('word').value")), (1, "c"))

    def test_play(self):
        """P plays at the pace that is chosen, and stops; at the last line it stops by itself. A reader isn't told each line meanwhile."""
        self.made(*self.pair(), "--moments", "2")
        self.open()
        until = "new Promise((done) => {{ const timer = setInterval(() => {{ if ({}) {{ clearInterval(timer); done(page.line); }} }}, 10); }})"
        state = "['play', 'head'].map((id) => document.getElementById(id).getAttribute(id === 'play' ? 'aria-pressed' : 'aria-live'))"
        self.value("document.getElementById('pace').value = '5'")
        begun = self.value("performance.now()")
        self.browser.key("p")
        self.assertEqual(self.value(state), ["true", "off"])
        self.assertGreater(self.value(until.format("page.line > 3")), 3)
        self.assertGreater(self.value("performance.now()") - begun, 3 * 160)  # milliseconds of three lines, five a second
        self.browser.key("p")
        line = self.line()
        self.assertEqual(self.value(state), ["false", "polite"])
        self.assertEqual(self.value("new Promise((done) => setTimeout(() => done(page.line), 300))"), line)
        self.value("document.getElementById('pace').value = '100'")
        begun = self.value("performance.now()")
        self.browser.key("p")
        self.assertEqual(self.value(until.format("page.timer === null")), 39)
        self.assertGreater(self.value("performance.now()") - begun, (39 - line) * 8)
        self.assertEqual(self.value(state), ["false", "polite"])

    def test_searches(self):
        """A word of the log, a path, and the number of a process are found, forwards and back, also what a mark says nothing of."""
        log = self.put("log", b"boot 100 7\nsleep 0 -100 runout\ngo 1\nfork 1 2 at 18\ntrap 1\nsignal 1 2\nsignal 2 2\ntrap 1\nidle\nend\n")
        self.made("--log", log)
        self.open()
        for words, lines in (("signal", [6, 7]), ("out 4", []), ("fork", [4]), ("2", [4, 7]), ("process 1 gets", [6])):
            self.browser.key("Home")
            self.browser.keys("/")
            self.value("document.getElementById('word').value = ''")
            self.browser.keys(words)
            self.browser.key("Enter")
            found = [self.line()] if self.text("found").startswith("line") else []
            while found and len(found) < 9:
                self.browser.key("n")
                if not self.text("found").startswith("line"):
                    break
                found.append(self.line())
            self.assertEqual(found, lines, words)
        self.made(*self.pair(), "--moments", "2")
        self.open()
        self.browser.keys("//etc/init")
        self.browser.key("Enter")
        self.assertIn("/etc/init", self.text("words"))

    def test_why_there(self):
        """Of a process that is chosen W goes to the line that put its image where it is, and the rule tells why."""
        self.made(*self.crowd(2500), "--moments", "2")
        self.open()
        made = next(line for line, text in enumerate(self.raw(), 1) if text.startswith("fork 1 2 "))
        for line, slot, wanted, why in ((287, 2, 273, "entry 2 has been there for longest, 4 seconds (5)"), (287, 1, 82, "waits so that a signal"),
                                        (287, 4, 274, "there is room for 37 clicks at click 38 (2)"), (100, 2, made, "A child gets the lowest")):
            self.go(line)
            self.choose(slot)
            self.browser.key("w")
            self.assertEqual((self.line(), self.value("document.getElementById('chosen').value")), (wanted, str(slot)))
            self.assertIn(why, self.text("rule"))
        self.choose(0)
        self.assertTrue(self.value("document.getElementById('why').disabled"))
        self.browser.key("w")
        self.assertEqual(self.line(), made)

    def test_places(self):
        """Which line put an image where it is: that with which its place in the table changed last. A page of a log alone has it too."""
        grown = TEXTS.replace("go 1\nfork", "go 1\nsize 1 30 keep\nfork")
        self.assertNotEqual(grown, TEXTS)
        for words in (self.crowd(2500), ("--log", self.put("log", grown.encode()))):
            self.made(*words, *["--moments", "2"] * (len(words) == 3))
            self.open()
            table, seen, wanted = Table(), {}, []
            for line, text in enumerate(self.raw(), 1):
                table.take(text)
                for slot, row in table.rows.items():
                    if seen.get(slot, [None])[0] != (row.number, row.place):
                        seen[slot] = (row.number, row.place), line
                    if row.place:
                        wanted.append([slot, line, seen[slot][1]])
            found = self.value(f"{[one[:2] for one in wanted]}.map(([slot, line]) => [slot, line, page.run.placed(slot, line)])")
            self.assertEqual(found, wanted)

    def test_quiz_by_one_key(self):
        """Where the quiz was begun by its button, Enter answers and asks on; where it was by Q, too."""
        self.made(*self.pair(), "--moments", "2")
        for begin in ("document.getElementById('quiz').focus()", "document.activeElement.blur()"):
            self.open("#line=18")
            self.value(begin)
            self.browser.key("Enter" if "quiz" in begin else "q")
            seen = []
            for _ in range(6):
                seen.append((self.line(), self.value("page.isAsked()")))
                self.browser.key("Enter")
            self.assertEqual([is_asked for _, is_asked in seen], 3 * [True, False])
            self.assertEqual([line for line, _ in seen[1::2]], [line for line in range(19, 40) if self.raw()[line - 1].split(" ")[0] in ("go", "idle")][:3])
            self.assertTrue(self.value("page.isQuiz"))

    def test_the_u_area_is_shown_on_demand(self):
        """It is closed until it is asked for; a key opens it. So are the words on the letters of the table."""
        self.made(*self.pair(), "--moments", "2")
        self.open("#line=39")
        is_shown = "document.getElementById('area').checkVisibility({ contentVisibilityAuto: true })"
        self.assertFalse(self.value(is_shown))
        self.value("document.querySelector('#p-area summary').focus()")
        self.browser.key("Enter")
        self.assertTrue(self.value(is_shown))
        self.assertIn("user 0, group 0; real user 0", self.text("area"))
        means = self.value("[...document.querySelectorAll('#p-ps dt')].map((one) => one.textContent)")
        self.assertEqual({letter for one in means[:5] for letter in one.split(", ")}, set("RroWwSsz"))
        self.assertLessEqual({name for one in means[5:] for name in one.split(", ")}, {*HEAD.split(), "CALL"})
