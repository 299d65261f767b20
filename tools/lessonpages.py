#!/usr/bin/env python3
"""Makes pages for a browser of the lessons for Lions' book, docs/lions, and of each of their runs: docs/tools/page.md."""
import argparse
import html
import os
import re
import shlex
import shutil
import subprocess
import sys
import tempfile

sys.path.insert(0, os.path.dirname(os.path.abspath(__file__)))
from v6.host.files import guarded, put_out, read_bytes
from v6.host.program import CORE, TOP, V6, ProgramError, add_version
from v6.host.progress import Progress
from v6.page import command as page
from v6.page import lesson as lessonhtml

LIONS = os.path.join(TOP, "docs", "lions")
COMMANDS = os.path.join(TOP, "..", "..", "bin")  # of tools that are installed
TITLE = "Runs for Lions' book"
RUN = re.compile(r"bin/v6 run (?P<image>\S+) (?P<core>\d+) (?P<script>\w\S*) ")
PLAYED = re.compile(r"tools/run.py (?P<image>\S+) (?P<script>\S+) --core (?P<core>\d+)")
TYPED = re.compile(r"tools/console.py (?P<image>\S+) ")
SCRIPT, SECOND = (re.compile(rf" --{word} (\S+)") for word in ("script", "second"))  # of a command with which lines are typed
OTHERS = "README", "answers"  # pages that are no lessons
PICTURE = re.compile(r"!\[[^]]*\]\(((?:pictures/)?[a-z]+\.svg)\)")


class LessonError(Exception):
    """Why a lesson has no page; the text tells it."""


def lessons():
    return sorted(name[:-3] for name in os.listdir(LIONS) if name.endswith(".md") and name[:-3] not in OTHERS)


def runs_of(command, number):
    """A command with which lines are typed also keeps them in a script; and of each run of a command its image, core and script, and its
    second image, where it has one."""
    typed, script, second = TYPED.search(command), SCRIPT.search(command), SECOND.search(command)
    if typed:
        name = script[1] if script else f"typed.{number}"
        kept = command if script else TYPED.sub(lambda one: f"{one[0]}--script {name} ", command)
        return kept, [(typed["image"], CORE, name, *([second[1]] if second else []))]
    found = [*RUN.finditer(command), *PLAYED.finditer(command)]
    return command, [(one["image"], int(one["core"]), one["script"]) for one in found]


class Folder:
    """A folder in which the commands of a lesson are played, as they stand there."""

    def __init__(self, name, v6):
        self.name = name
        for link in ("docs", "examples", "tools"):
            os.symlink(os.path.join(TOP, link), self.path(link))
        os.mkdir(self.path("bin"))
        with open(self.path("bin/v6"), "w") as file:
            file.write(f'#!/bin/sh\nexec {v6} "$@"\n')
        os.chmod(self.path("bin/v6"), 0o755)

    def path(self, name):
        return os.path.join(self.name, name)

    def play(self, command):
        path = os.pathsep.join([self.path("bin"), COMMANDS, os.environ.get("PATH", "")])
        done = subprocess.run(["sh", "-c", command], cwd=self.name, env={**os.environ, "V6": self.path("bin/v6"), "PATH": path},
                              capture_output=True)
        if done.returncode not in range(128):
            raise LessonError(f"{command}: status {done.returncode}")


def text_of(lesson):
    return read_bytes(os.path.join(LIONS, lesson + ".md")).decode()


def pages_of(lesson, options, progress):
    """Plays a lesson, and makes its pages: of each command that has runs, by its number, the names and the titles of these."""
    text, made, count = text_of(lesson), {}, 0
    with tempfile.TemporaryDirectory() as name:
        folder = Folder(name, options.v6)
        for number, (command, _) in enumerate(lessonhtml.commands(text)):
            command, runs = runs_of(command, number)
            progress.tell(f"{lesson}: {command}")
            folder.play(command)
            for run in runs:
                if os.path.exists(folder.path(run[2])):
                    count += 1
                    one = f"{lesson}-{count}.html", f"run {count}"
                    make(folder, run, (one[0], f"{title_of(text)}: {one[1]}"), options)
                    made.setdefault(number, []).append(one)
    return made


def title_of(text):
    return text.partition("\n")[0].lstrip("# ")


def make(folder, run, made, options):
    """The page of one run, by page.py."""
    image, core, script, *second = run
    words = [folder.path(image), str(core), folder.path(script), *(f"--second={folder.path(name)}" for name in second), "--replay",
             "--title", made[1], "--v6", options.v6, "--moments", str(options.moments), "-o", os.path.join(options.output, made[0])]
    if page.main(words):
        raise LessonError(f"{made[0]}: the page wasn't made")


def make_all(options):
    unknown = sorted(set(options.lessons) - set(lessons()))
    if unknown:
        raise LessonError(f"{unknown[0]}: no such lesson; there are {', '.join(lessons())}")
    os.makedirs(options.output, exist_ok=True)
    chosen, items = options.lessons or lessons(), []
    with Progress("lessonpages.py") as progress:
        for lesson in chosen:
            made = pages_of(lesson, options, progress)
            tell(lesson, made, chosen, options.output)
            runs = [link_to(*one) for pages in made.values() for one in pages]
            items.append(f"<li>{link_to(lesson + '.html', title_of(text_of(lesson)))}: {', '.join(runs)}</li>")
    tell("answers", {}, chosen, options.output)
    index = "\n".join([f"<h1>{TITLE}</h1>", "<ul>", *items, "</ul>", f"<p>{link_to('answers.html', 'Answers')}</p>"])
    put_out(os.path.join(options.output, "index.html"), lessonhtml.page(TITLE, index))


def tell(lesson, made, chosen, folder):
    """The page of a lesson, and its pictures."""
    text = text_of(lesson)
    put_out(os.path.join(folder, lesson + ".html"), lessonhtml.Lesson(text, made, {*chosen, "answers"}).told())
    for name in PICTURE.findall(text):
        os.makedirs(os.path.join(folder, os.path.dirname(name)), exist_ok=True)
        shutil.copyfile(os.path.join(LIONS, name), os.path.join(folder, name))


def link_to(name, words):
    return f'<a href="{html.escape(name)}">{html.escape(words)}</a>'


def main(words):
    parser = argparse.ArgumentParser(prog="lessonpages.py", description="Makes pages of docs/lions and of its runs: docs/tools/page.md")
    parser.add_argument("lessons", nargs="*", metavar="LESSON", help="a lesson, as slp; all of them without one")
    parser.add_argument("-o", "--output", metavar="FOLDER", default="lessons", help="where the pages go (lessons)")
    parser.add_argument("--moments", type=int, default=page.MOMENTS, metavar="N", help="how many moments of a run are looked at, at most")
    parser.add_argument("--v6", metavar="COMMAND", default=V6, help="the program (bin/v6)")
    add_version(parser)
    options = parser.parse_args(words)
    options.v6 = absolute(options.v6)
    return guarded("lessonpages.py", lambda: make_all(options), LessonError, ProgramError)


def absolute(command):
    """A command whose program is named by a path from here, so that it is found from elsewhere too."""
    first, *rest = shlex.split(command) or [""]
    first = os.path.abspath(first) if os.path.dirname(first) else first
    return shlex.join([first, *rest])


if __name__ == "__main__":
    sys.exit(main(sys.argv[1:]))
