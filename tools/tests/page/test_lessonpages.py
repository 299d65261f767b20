"""lessonpages.py: which runs the commands of a lesson have, and the pages that are made of them."""
import os
import re

from tests.common import Case, read, tool
from tests.page.pagereader import Read

from v6.page import lesson as lessonhtml

lesson_pages = tool("lessonpages")
LINK = re.compile(r'(?:href|src)="([^"#]*)(?:#([^"]*))?"')
TEXT = """# A & B

| a | `b<` |
|---|---|
| 1 | [x](../manual/log.md) |

- one
  goes *on*
- **two**, by [buf](buf.md#a-b)

```
$ bin/v6 run image 100 script term log final
$ tools/log.py show log | tail -n 1
   7  sR  a <b>
$ cat x
   8  sR  c
```

Lines 7 and 8, and line 7 of [it](https://example.org/).
"""
RUN = 'href="ab-1.html#line=7">7</a>'


class Lessons(Case):
    def test_html(self):
        """A lesson in HTML. The lines alone that were shown of a run's log are links to it, and pages alone that are there."""
        lines = lessonhtml.Lesson(TEXT, {0: [("ab-1.html", "run 1")]}, {"buf"}).told().decode().split("\n")
        self.assertEqual(lines[lines.index('<p><a href="index.html">all lessons</a></p>') + 1 : -2], [
            '<h1 id="a--b">A &amp; B</h1>', "<table>", "<tr><th>a</th><th><code>b&lt;</code></th></tr>", "<tr><td>1</td><td>x</td></tr>",
            "</table>", "<ul>", "<li>one goes <i>on</i></li>", '<li><b>two</b>, by <a href="buf.html#a-b">buf</a></li>', "</ul>",
            "<pre><b>$ bin/v6 run image 100 script term log final</b>", "<b>$ tools/log.py show log | tail -n 1</b>",
            f"   <a {RUN}  sR  a &lt;b&gt;", "<b>$ cat x</b>", "   8  sR  c</pre>", '<p>Step by step: <a href="ab-1.html">run 1</a></p>',
            f'<p>Lines <a {RUN} and 8, and line <a {RUN} of <a href="https://example.org/">it</a>.</p>'])

    def test_runs(self):
        """The image, the core and the script of each run that a command makes."""
        runs_of = lesson_pages.runs_of
        for command, runs in {
            "bin/v6 run image 100 script term log final": [("image", 100, "script")],
            "bin/v6 run a 64 one t l f && bin/v6 run a 65 two t l f": [("a", 64, "one"), ("a", 65, "two")],
            "tools/run.py examples/shell/image script --core 1200 --log log; echo": [("examples/shell/image", 1200, "script")],
            "bin/v6 check image": [],
        }.items():
            self.assertEqual(runs_of(command, 3), (command, runs))
        self.assertEqual(runs_of("echo ls | tools/console.py image --disk after >term", 3),
                         ("echo ls | tools/console.py image --script typed.3 --disk after >term", [("image", 3968, "typed.3")]))

        typed = "tools/console.py a --second b --script c <typed"
        self.assertEqual(runs_of(typed, 3), (typed, [("a", 3968, "c", "b")]))

    def test_a_lesson_of_two_disks(self):
        """Its pages are made without what core holds, and the terminal is the lesson's."""
        out = self.path("out")
        self.assertEqual(self.call(lesson_pages.main, "-o", out, "--moments", "8", "mount")[:2], (0, ""))
        self.assertEqual(sorted(os.listdir(out))[2:], ["mount-1.html", "mount-2.html", "mount-3.html", "mount.html", "pictures"])
        found = Read(read(os.path.join(out, "mount-1.html")))
        shown = read(os.path.join(lesson_pages.LIONS, "mount.md")).decode().split("<typed; echo\n")[1].split("```")[0]
        self.assertEqual((found.head["hasMemory"], found.terminal(found.head["lines"]).decode().replace("\r\n", "\n")),
                         (False, shown.removesuffix("\n")))

    def test_every_lesson_has_a_run(self):
        for lesson in lesson_pages.lessons():
            text = read(os.path.join(lesson_pages.LIONS, lesson + ".md")).decode()
            found = [run for number, (command, _) in enumerate(lessonhtml.commands(text)) for run in lesson_pages.runs_of(command, number)[1]]
            self.assertTrue(found, lesson)
            self.assertIn(f"tools/lessonpages.py -o lessons {lesson}`", text)

    def links(self, folder):
        """The links of the pages in a folder: (page, file, what stands after the #)."""
        for name in sorted(os.listdir(folder)):
            if name.endswith(".html") and not name.endswith("-1.html"):
                for file, place in LINK.findall(read(os.path.join(folder, name)).decode()):
                    yield name, file or name, place

    def test_a_lesson(self):
        """A page of the lesson, which leads to those of its runs and their lines, and one that leads to it. An unknown name is refused."""
        out = self.path("out")
        self.assertEqual(self.call(lesson_pages.main, "-o", out, "slp"), (0, "", ""))
        self.assertEqual(sorted(os.listdir(out)), ["answers.html", "index.html", "pictures", "slp-1.html", "slp.html"])
        index, lesson = (read(os.path.join(out, name)).decode() for name in ("index.html", "slp.html"))
        self.assertIn('<a href="slp.html">swtch, sleep and wakeup</a>: <a href="slp-1.html">run 1</a>', index)
        self.assertIn('\n  <a href="slp-1.html#line=18">18</a>  srr  wakes those that wait for keys: process 1, process 2\n', lesson)
        self.assertIn('<li>Lines <a href="slp-1.html#line=19">19</a> and <a href="slp-1.html#line=20">20</a>: <code>swtch</code> begins',
                      lesson)
        self.assertIn("line:\t.=.+100.</pre>", lesson)
        self.assertNotIn("<a href=\"../", lesson)
        for name, file, place in self.links(out):
            target = read(os.path.join(out, file)).decode()
            self.assertTrue(not place or place.startswith("line=") or f' id="{place}"' in target, (name, file, place))
        found = Read(read(os.path.join(out, "slp-1.html")))
        self.assertEqual((found.head["lines"], found.words(18)), (39, "wakes those that wait for keys: process 1 (/etc/init), process 2 (/etc/init)"))
        status, _, said = self.call(lesson_pages.main, "-o", out, "none")
        self.assertEqual((status, said.startswith("lessonpages.py: none: no such lesson; there are buf, ")), (1, True))
