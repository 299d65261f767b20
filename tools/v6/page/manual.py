"""The pages as `make install` puts them: those of docs, which name the installed commands, and manual pages made of them."""
import os
import re

from v6.host.program import TOP

BULLET = "\\(bu"
PAGE_OF = {"cc": "c", "lessonpages": "page"}  # whose page hasn't its name


def tools():
    """The tools that have a page in docs/tools: these are installed."""
    names = (name[:-3] for name in os.listdir(os.path.join(TOP, "tools")) if name.endswith(".py"))
    folder = os.path.join(TOP, "docs", "tools")
    return [name for name in sorted(names) if os.path.exists(os.path.join(folder, PAGE_OF.get(name, name) + ".md"))]


TOOLS = tools()
ABOUT = {"lessonpages": "pages for a browser of the lessons for Lions' book"}  # what a tool is in a line whose page is another's
PAGES = {  # by its name and section: the source, and what it is in a line; that of a tool is the head of its page
    ("v6", 1): ("manual/commands.md", "run, check and make disks of Sixth Edition UNIX"),
    ("v6script", 5): ("manual/scripts.md", "what comes to the machine of v6 from outside"),
    ("v6log", 5): ("manual/log.md", "what the kernel of v6 decides"),
    **{(f"v6-{name}", 1): (f"tools/{PAGE_OF.get(name, name)}.md", ABOUT.get(name)) for name in TOOLS},
    ("v6shell", 7): ("tools/shell.md", "the shell on the disk of v6 and its commands"),
}
HOME = re.compile(r"[ \n]*<!--\s*in\s+the\s+repository\s*-->.*?<!-- -->", re.S)  # a part that is of the repository alone
LINK = re.compile(r"(!?)\[([^\]]*)\]\(([^)#]*)(#[^)]*)?\)")


def installed(text, lib):
    """A text with the names of the installed commands: v6-log is tools/log.py. `lib` is where their files are; a shell reads it."""
    text = HOME.sub("", text)
    text = re.sub(r"(?<![\w/.$-])bin/v6\b", "v6", text)
    text = re.sub(rf"(?<![\w/.-])(?:tools/)?({'|'.join(TOOLS)})\.py\b", r"v6-\1", text)
    place = lib.replace(" ", "\\ ")
    return re.sub(r"(?<![\w/.$-])(examples|tools/c|docs/(?:lions|manual|tools))/", lambda found: f"{place}/{found[1]}/", text)


def installed_page(text, name, names, lib):
    """A page of docs, of this name in the repository, as it is installed: a link to what isn't among the names is its words."""
    def link(found):
        target = os.path.normpath(os.path.join(os.path.dirname(name), found[3])) if found[3] else name
        return found[0] if "://" in found[3] or target in names else found[2]

    return LINK.sub(link, installed(text, lib))


def plain(text):
    """A piece of a line for roff: marks of Markdown go, and what roff would take is escaped."""
    text = text.replace("\\|", "|").replace("\\", "\\e").replace("-", "\\-")
    text = re.sub(r"\*\*([^*]+)\*\*", r"\\fB\1\\fR", text)
    text = re.sub(r"`([^`]+)`", r"\\fB\1\\fR", text)
    text = re.sub(r"(?<![\w*])\*([^*]+)\*", r"\\fI\1\\fR", text)
    return "\\&" + text if text.startswith((".", "'")) else text


def row(line):
    """A row of a table: its first cell, and under it the others."""
    cells = [cell.strip() for cell in re.split(r"(?<!\\)\|", line.strip().strip("|"))]
    first, rest = cells[0], [cell for cell in cells[1:] if cell]
    return [".TP", plain(first) or "\\&", plain("; ".join(rest)) or "\\&"]


def joined(lines):
    """The lines with each paragraph on one, since a mark may begin on one line and end on the next."""
    out, code = [], False
    for line in lines:
        goes_on = out and not code and re.match(r"[^#|`\s]|`[^`]", line) and not re.match(r"- |\d+\. ", line)
        if goes_on and re.match(r"[^#|\s]|  +[^\s]", out[-1]) and not out[-1].startswith(("```", "    ")):
            out[-1] += " " + line
        elif not code and re.match(r"  ? ?[^\s]", line) and out and out[-1]:
            out[-1] += " " + line.strip()
        else:
            out.append(line)
        code ^= line.startswith("```")
    return out


def body(lines):
    """The lines of a page of Markdown as those of a manual page."""
    out, code, rows, gap = [], False, 0, False
    for line in joined(lines):
        rows = rows + 1 if line.startswith("|") else 0
        if line.startswith("```"):
            code = not code
            out += [".PP", ".nf"] if code else [".fi"]
        elif code:
            out.append(verbatim(line))
        elif line.startswith("    "):
            out += [".br", verbatim(line.strip())]
        elif line.startswith("#"):
            level, _, title = line.partition(" ")
            out.append(f".SH {plain(title).upper()}" if len(level) <= 2 else f".SS {plain(title)}")
        elif rows:
            out += row(line) if rows > 2 else []  # not the head and the line under it
        elif re.match(r"(- |\d+\. )", line):
            mark, _, text = line.partition(" ")
            out += [f".IP {BULLET if mark == '-' else mark} 4", plain(text)]
        elif line.strip():
            out += ([".PP"] if gap and out and not out[-1].startswith(".S") else []) + [plain(line.strip())]
        gap = not line.strip()
    return out


def verbatim(line):
    return "\\&" + line.rstrip().expandtabs().replace("\\", "\\e").replace("-", "\\-")


def page(name, section, lib):
    """A manual page."""
    source, about = PAGES[name, section]
    with open(os.path.join(TOP, "docs", source), encoding="utf-8") as file:
        head, _, text = LINK.sub(lambda found: "" if found[1] else found[2], installed(file.read(), lib)).partition("\n")
    about = about or head.lstrip("# ").rpartition(": ")[2]
    first = [f'.TH {name.upper()} {section} "" "v6" "Sixth Edition UNIX"', ".SH NAME", f"{plain(name)} \\- {plain(about)}",
             ".SH DESCRIPTION"]
    last = [".SH SEE ALSO", ", ".join(f"\\fB{plain(one)}\\fR({at})" for one, at in PAGES if (one, at) != (name, section)) + ".",
            "All pages, with their links, are in", f"\\fB{plain(lib)}/docs\\fR."]
    return "\n".join(first + body(text.split("\n")) + last) + "\n"
