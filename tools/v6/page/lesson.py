"""A lesson for Lions' book in HTML: the lines of its logs lead to the pages of its runs, which lessonpages.py makes."""
import html
import re

from v6.page.manual import HOME, joined

BLOCK = re.compile(r"^```\n(\$ .*?)^```$", re.M | re.S)
COMMENT = re.compile(r"[ \n]*<!--.*?-->", re.S)
CODE = re.compile(r"`([^`]+)`")
LINK = re.compile(r"(!?)\[([^\]]*)\]\(([^)#]*)(#[^)]*)?\)")
MARKS = ((re.compile(r"\*\*([^*]+)\*\*"), r"<b>\1</b>"), (re.compile(r"(?<![\w*])\*([^*]+)\*"), r"<i>\1</i>"))
SHOWS = "tools/log.py show"
SHOWN = re.compile(r"( *)(\d+)(?=  )")  # a line of a log, as `log.py show` prints it
NAMED = re.compile(r"\b[Ll]ines? \d+(?:(?:, | to | and )\d+)*")  # lines of it in a text
ITEM = re.compile(r"(- |\d+\. )")
STYLE = """:root { color-scheme: light dark }
body { max-width: 60rem; margin: 1rem auto; padding: 0 0.8rem; font: 16px/1.45 system-ui, sans-serif }
pre { overflow-x: auto; border: 1px solid #888; border-radius: 6px; padding: 0.5rem; font-size: 13px; line-height: 1.35 }
img { max-width: 100%; background: #fff }
th, td { text-align: left; vertical-align: top; padding: 0 1em 0 0 }"""
PAGE = """<!DOCTYPE html>
<html lang="en"><head><meta charset="utf-8"><meta name="viewport" content="width=device-width, initial-scale=1">
<title>{title}</title>
<style>
{style}
</style></head><body>
{body}
</body></html>
"""


def commands(text):
    """The commands of a page, each with what the page shows that it prints."""
    found = []
    for block in BLOCK.findall(text):
        for line in block.splitlines(True):
            if line.startswith("$ "):
                found.append([line[2:-1], ""])
            else:
                found[-1][1] += line
    return found


def page(title, body):
    return PAGE.format(title=html.escape(title), style=STYLE, body=body).encode()


class Lesson:
    """A lesson that is told piece by piece. `runs` has the pages of each command that made some: (name, title) of each. `pages` has the
    names of the lessons that are told, to which others may lead; links to other pages are their words. What is for the repository alone,
    as how such pages are made, isn't told."""

    def __init__(self, text, runs, pages):
        self.lines = joined(COMMENT.sub("", HOME.sub("", text)).split("\n"))
        self.title = self.lines[0].lstrip("# ")
        self.runs, self.pages, self.commands = runs, pages, 0
        self.run, self.seen = None, set()  # the page of the last run, and the lines of its log that were shown

    def told(self):
        """The lesson as HTML."""
        out, at = ['<p><a href="index.html">all lessons</a></p>'], 0
        while at < len(self.lines):
            end, told = self.piece(at)
            out += told
            at = end
        return page(self.title, "\n".join(out))

    def piece(self, at):
        """A piece of the lesson that begins with this line, and where it ends."""
        line, end = self.lines[at], at + 1
        if line.startswith("```"):
            end = self.lines.index("```", end)
            return end + 1, self.block(self.lines[at + 1 : end])
        if line.startswith("#"):
            level, _, title = line.partition(" ")
            return end, [f'<h{len(level)} id="{anchor(title)}">{self.inline(title)}</h{len(level)}>']
        for begins, tell in ((re.compile(r"\|"), self.table), (ITEM, self.items)):
            if begins.match(line):
                while end < len(self.lines) and begins.match(self.lines[end]):
                    end += 1
                return end, tell(self.lines[at:end])
        return end, [f"<p>{self.inline(line)}</p>"] if line.strip() else []

    def items(self, lines):
        kind = "ul" if lines[0].startswith("-") else "ol"
        return [f"<{kind}>", *(f"<li>{self.inline(ITEM.sub('', line, count=1))}</li>" for line in lines), f"</{kind}>"]

    def table(self, lines):
        rows = [[self.inline(cell.strip()) for cell in line.strip("|").split("|")] for line in lines]
        cells = [("th", rows[0]), *(("td", row) for row in rows[2:])]
        return ["<table>", *("<tr>" + "".join(f"<{kind}>{cell}</{kind}>" for cell in row) + "</tr>" for kind, row in cells), "</table>"]

    def block(self, lines):
        """A block of commands and of what they print; after it come links to the pages of its runs."""
        out, made, is_log = [], [], False
        is_typed = lines[:1] and lines[0].startswith("$ ")
        for line in lines:
            if is_typed and line.startswith("$ "):
                pages = self.runs.get(self.commands, [])
                self.commands += 1
                is_log = line[2:].startswith(SHOWS)
                if pages:
                    made, self.run, self.seen = made + pages, pages[-1][0], set()
                out.append(f"<b>{html.escape(line)}</b>")
            else:
                out.append(SHOWN.sub(self.shown, html.escape(line), count=1) if is_log and SHOWN.match(line) else html.escape(line))
        links = ", ".join(f'<a href="{name}">{html.escape(title)}</a>' for name, title in made)
        return ["<pre>" + "\n".join(out) + "</pre>"] + [f"<p>Step by step: {links}</p>"] * bool(links)

    def shown(self, found):
        """The number of a line that is shown of the last run's log, as a link to it."""
        self.seen.add(found[2])
        return found[1] + self.link_of(found[2])

    def link_of(self, number):
        return f'<a href="{self.run}#line={number}">{number}</a>' if self.run and number in self.seen else number

    def inline(self, text):
        """A piece of a line: code, links, what is bold or slanted, and the lines of the log that was shown last."""
        codes = []

        def keep(found):
            codes.append(f"<code>{found[1]}</code>")
            return f"\0{len(codes) - 1}\0"

        text = CODE.sub(keep, html.escape(text, quote=False))
        for mark, made in MARKS:
            text = mark.sub(made, text)
        text = NAMED.sub(lambda found: re.sub(r"\d+", lambda number: self.link_of(number[0]), found[0]), text)
        text = LINK.sub(self.link, text)
        return re.sub("\0(\\d+)\0", lambda found: codes[int(found[1])], text)

    def link(self, found):
        is_picture, words, target, heading = found.groups()
        if is_picture:
            return f'<img src="{html.escape(target)}" alt="{html.escape(words)}">'
        if target and "://" not in target and target.removesuffix(".md") not in self.pages:
            return words
        return f'<a href="{html.escape(re.sub("[.]md$", ".html", target))}{html.escape(heading or "")}">{words}</a>'


def anchor(title):
    return re.sub(r"[^a-z0-9 _-]", "", title.lower()).replace(" ", "-")
