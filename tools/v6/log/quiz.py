"""A quiz over a log: it hides the next choice, and tells by the rules who was right. See docs/tools/log.md."""
import re
import sys
import textwrap

from v6.log.choices import CHOICES
from v6.log.processes import CORE_FIRST, LogFault

BEFORE = 4  # lines that are told before a question
WIDTH = 100
WHO, WHAT = "Who runs next? ", "What does the swapper do? "
ANSWERS = {WHO: "an entry's number, or `nobody`", WHAT: "`in` or `out` with an entry's number, or `sleep`"}
MORE = "; an empty line shows the answer, `q` ends"


class Done(Exception):
    """Nobody answers any more."""


class Ended(Done):
    """The input has ended, where an answer was asked for."""


def answers(file):
    """Answers that are typed, or the lines of a file, which are shown as if they were."""
    if file.isatty():
        import readline  # noqa: F401, since input() edits its line by it
    while True:
        question = yield
        if file.isatty():
            try:
                yield input(question)
            except EOFError:
                print()
                return
            except KeyboardInterrupt:
                print()
                raise
            continue
        line = file.readline()
        if not line:
            return
        print(question + line.strip())
        yield line


def meant(text, question):
    """An answer as the beginning of a line of the log, or None."""
    words = text.lower().split()
    if question == WHO:
        if words in (["nobody"], ["idle"]):
            return "idle"
        words = words if words[:1] == ["go"] else ["go", *words]
    if words == ["sleep"] and question == WHAT:
        return "sleep"
    known = ("go",) if question == WHO else ("in", "out")
    return " ".join(words) if len(words) == 2 and words[0] in known and re.fullmatch("0|[1-9][0-9]?", words[1]) else None


def of_line(line):
    """What of a line an answer has to give: its word, and its entry, where the move or the choice is of one."""
    word, *rest = line.split(" ")
    return word if word in ("idle", "sleep") else f"{word} {rest[0]}"


class Quiz:
    def __init__(self, story, file):
        self.story, self.table = story, story.table
        self.answers, self.asked, self.right, self.told = answers(file), 0, 0, []

    def answer(self, question):
        """What is answered, as the beginning of a line; "" where the answer is to be shown."""
        while True:
            next(self.answers)
            try:
                text = self.answers.send(question).strip()
            except StopIteration:
                raise Ended from None
            if text == "q":
                raise Done
            found = meant(text, question) if text else ""
            if found is not None:
                return found
            print(f"an answer is {ANSWERS[question]}{MORE}")

    def ask(self, number, line, why):
        """One question: what led to it, the table, the answer, and who was right."""
        self.show(number)
        question = WHO if line.split(" ")[0] in CHOICES else WHAT
        found, wanted = self.answer(question), of_line(line)
        self.asked += 1
        self.right += found == wanted
        verdict = "It is" if not found else "Right:" if found == wanted else "No:"
        words = self.story.teller.told(self.table.read(line))
        print("\n".join(textwrap.wrap(f"{verdict} `{line}`, {words}. By the rules: {why}.", WIDTH)) + "\n")

    def show(self, number):
        for line in self.told[-BEFORE:]:
            print(line)
        last = f"entry {self.table.chosen} was chosen last"
        print(f"line {number} of {len(self.story.lines)}, second {self.table.second()}; {last}")
        print("S ENTRY   PID PRI TIME SIZE TEXT PLACE      WAITS")
        for slot, row in sorted(self.table.rows.items()):
            place = f"{row.place.where} {row.place.start}" if row.place else "-"
            text = "-" if row.text is None else row.text
            print(f"{self.table.letter(slot)} {slot:5} {row.number:5} {self.table.priority[slot]:3} {row.time:4} "
                  f"{row.size if slot else '-':>4} {text:>4} {place:10} {row.channel or '-'}")
        free = ", ".join(f"{first} to {last}" for first, last in self.free()) or "none"
        print(f"free clicks of core: {free}")

    def free(self):
        """The holes of core, each by its first and its last click."""
        at = CORE_FIRST
        for start, count in sorted(self.table.taken("at")):
            if start > at:
                yield at, start - 1
            at = max(at, start + count)
        if at <= self.table.core:
            yield at, self.table.core

    def play(self, first, most):
        """Asks at each choice from a line on, up to a number of them; whether the log was read to its end."""
        none = ""
        try:
            for number, line in enumerate(self.story.lines, 1):
                entry = self.table.read(line)
                foretold, why = self.table.foretold(entry) or (line, "")
                if foretold != line:
                    raise LogFault(number, f"it is {line!r}, and by the rules {foretold!r}: {why}")
                if why and number >= first and self.table.is_open(entry):
                    if self.asked >= most:
                        return False
                    self.ask(number, line, why)
                self.told.append(f"{number:6}  {line:24}  {self.story.take(line)[0]}")
            none = f": from line {first} on two can run at no line, and no process waits to come into core"
        except Done as error:
            none = ": the input ended before an answer; an empty line shows it" * isinstance(error, Ended)
            return False
        finally:
            self.tell(none)
        return True

    def tell(self, none):
        print(f"{self.right} of {self.asked} right" if self.asked else f"no choice was asked for{none}")
        sys.stdout.flush()
