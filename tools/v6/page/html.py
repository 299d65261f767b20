"""The one HTML file of a run: its data, packed, the style and the program of the page, and a picture of the log."""
import base64
import hashlib
import html
import os
import re
from array import array

from v6.debug.views import HEAD
from v6.log.picture import COLUMNS, LEFT
from v6.page.pack import packed
from v6.run.moments import NO_MEMORY

FOLDER = os.path.dirname(os.path.abspath(__file__))
ALONE = "a page of a log alone: registers, memory, calls, users and commands aren't in it"
WITHOUT = f"{NO_MEMORY}: registers, memory, calls, users and commands aren't in this page"
PAPER = re.compile(r"@page \{[^}]*\}\n|@media print \{.*\}\n")  # what the picture says of paper, which is the page's to say


def part(name):
    with open(os.path.join(FOLDER, name), encoding="utf-8") as file:
        return file.read()


def html_of_run(account, run, head):
    """The page of a run."""
    looks = account.looks.found
    shown = [size for slots, *_ in looks for size in run.shown_at(slots)]
    moments = {"slots": array("I", [slots for slots, *_ in looks]), "shown": array("I", shown),
               "ends": array("I", [after for _, _, after, _ in looks])}
    left = "; ".join(filter(None, ("" if run.has_memory else WITHOUT, account.left_out())))
    head = {**head, "isRun": True, "hasMemory": run.has_memory, "isEight": run.eight, "last": account.last, "left": left,
            "said": run.said if run.status else ""}
    return html_of(account, head, moments, run.terms)


def html_of_log(account, terminals, head):
    """The page of a log alone. When a terminal showed what isn't known, so all of it is shown."""
    return html_of(account, {**head, "isRun": False, "hasMemory": False, "isEight": False, "last": 0, "left": ALONE, "said": ""}, {}, terminals)


def html_of(account, head, moments, terminals):
    log = account.log
    head = {**head, "lines": len(log), "isCut": not account.table.over, "texts": account.texts.all(), "core": account.table.core,
            "places": account.panels.places, "fields": len(account.panels.rows), "width": account.width, "ps": HEAD.split(),
            "left_of_lanes": LEFT, "lanes": COLUMNS, "terminals": [len(one) for one in terminals]}
    columns = {"words": account.words, "raw": account.raw, "kinds": account.kinds, "moments": account.moments,
               "term": array("B", b"".join(terminals)), **account.panels.columns(), **moments}
    picture = PAPER.sub("", account.picture.drawn(account.table))
    program = part("page.js")
    found = base64.b64encode(hashlib.sha256(program.encode()).digest()).decode()
    filled = {"TITLE": html.escape(head["title"]), "STYLE": part("page.css"), "PICTURE": picture, "PROGRAM": program,
              "SHA256": found, "DATA": packed(head, columns)}
    return re.sub(r"\{\{([A-Z0-9]+)\}\}", lambda name: filled[name[1]], part("page.html")).encode()
