"""Pages whose commands are played, and print what the pages show."""
import contextlib
import io
import os
import re
import shlex
import subprocess
import unittest.mock

from tests.common import TOP, V6, Case, read, status_of, tool, v6

from v6.page.lesson import commands

WORD = r"(?:'[^']*'|[^|;&<>$`*?~#()\\'\n])"  # a word as it stands, or of a text in which the shell knows nothing
# A tool alone, or one that is typed at by printf or from a file; its output may go to a file or through filters, or other commands follow.
CALLED = re.compile(rf"(?:(?P<typed>printf '[^']*') \| )?tools/(?P<tool>as|cc|console|disk|log|look|page|run|trace|try)\.py (?P<words>{WORD}*)"
                    r"(?:<(?P<file>\w+))?(?:>(?P<to>\w+)|\| (?P<through>[^;&<>`]*)|; (?P<then>[^|&<>`]*))?")
PROGRAM = re.compile(rf"bin/v6 (?P<words>{WORD}*)(?P<then>; echo status \$\?)?")
PICTURE = re.compile(r"!\[[^]]*\]\(((?:pictures/)?[a-z]+\.svg)\)")
LINK = re.compile(r"\]\(([^)#]*)(?:#([^)]*))?\)")


def anchors(page):
    return {re.sub(r"[^a-z0-9 _-]", "", line.lstrip("# ").lower()).replace(" ", "-")
            for line in page.splitlines() if line.startswith("#")}


def broken_links(*path):
    """The links of a page that lead to no file, or to no heading of one."""
    page, broken = os.path.join(TOP, "docs", *path), []
    for file, heading in LINK.findall(read(page).decode()):
        target = os.path.normpath(os.path.join(os.path.dirname(page), file)) if file else page
        if not os.path.exists(target) or heading and heading not in anchors(read(target).decode()):
            broken.append((file, heading))
    return broken


def stream():
    """Where a tool that is called here writes."""
    return io.TextIOWrapper(io.BytesIO(), encoding="utf-8", errors="backslashreplace", newline="\n", write_through=True)


class Runs(Case):
    """A folder in which the commands are played, one page after the other in folders of their own."""

    def setUp(self):
        super().setUp()
        for name in ("docs", "examples", "tools"):
            os.symlink(os.path.join(TOP, name), self.path(name))
        os.mkdir(self.path("bin"))
        self.put("bin/v6", f'#!/bin/sh\nexec {V6} "$@"\n'.encode())
        os.chmod(self.path("bin/v6"), 0o755)

    def play(self, command):
        """The status of a command, and what it prints. A tool is called here, and the program without a shell, which is cheaper than
        processes of their own."""
        called, program = CALLED.fullmatch(command), PROGRAM.fullmatch(command)
        if called:
            status, out = self.called(called)
        elif program:
            status, out = self.there(lambda: v6(*shlex.split(program["words"])))
            status, out = (0, f"{out}status {status}\n") if program["then"] else (status, out)
        else:
            status, out = self.shell(command)
        return status, out.replace("\r\n", "\n")

    def shell(self, command, data=None):
        """What the shell makes of a command, which reads these bytes."""
        done = subprocess.run(["sh", "-c", command], cwd=self.folder, env={**os.environ, "V6": self.path("bin/v6")}, input=data,
                              stdout=subprocess.PIPE, stderr=subprocess.STDOUT)
        return done.returncode, done.stdout.decode()

    def there(self, does):
        """What is done in the folder."""
        before = os.getcwd()
        os.chdir(self.folder)
        try:
            return does()
        finally:
            os.chdir(before)

    def called(self, command):
        """What a tool prints, and what the rest of its command makes of that."""
        typed = self.shell(command["typed"])[1].encode() if command["typed"] else read(self.path(command["file"])) if command["file"] else b""
        out = stream()
        error = stream() if command["to"] or command["through"] else out  # what it says goes where its output does, but for these
        main, words = tool(command["tool"]).main, shlex.split(command["words"])
        with contextlib.redirect_stdout(out), contextlib.redirect_stderr(error):
            with unittest.mock.patch("sys.stdin", io.TextIOWrapper(io.BytesIO(typed))):
                status = self.there(lambda: status_of(main, words))
        shown, said = out.buffer.getvalue(), error.buffer.getvalue().decode()
        if command["to"]:
            self.put(command["to"], shown)
            return status, said
        if command["through"]:
            status, shown = self.shell(command["through"], shown)
            return status, said + shown
        if command["then"]:
            status, more = self.shell(f"(exit {status or 0}); {command['then']}")
            said += more
        return status, said

    def played(self, *path):
        """Plays a page, by the names of its path; its pictures are those that its commands make."""
        page = read(os.path.join(TOP, "docs", *path)).decode()
        for command, shown in commands(page):
            self.assertEqual(self.play(command), (0, shown), command)
        for picture in PICTURE.findall(page):
            self.assertEqual(read(self.path(os.path.basename(picture))), read(os.path.join(TOP, "docs", *path[:-1], picture)))
