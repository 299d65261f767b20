#!/usr/bin/env python3
"""How long a browser that has just been started takes to open pages of tools/page.py.

    speed/opening.py TIMES PAGE..
    speed/opening.py log LINES LOG

Each page is opened TIMES times, each time in a browser of its own, as is a page with nothing in it. Told are, of the median
opening, the seconds until the page is shown, and the processor time of the thread that runs and draws it, of its process, and
of all processes of the browser. Where other work goes on, processor time alone counts. `log` writes a log of so many lines,
of five processes that take turns, of which tools/page.py --log makes a page.
"""
import glob
import os
import sys
import tempfile

sys.path.insert(0, os.path.dirname(os.path.dirname(os.path.realpath(__file__))))
import speed  # which finds the tests of the tools
from tests.page import browser

LONGEST = 600  # seconds for an answer, where other work goes on
EMPTY = "<!DOCTYPE html><title>empty</title><main></main><script>const page = {}</script>"
TICKS = os.sysconf("SC_CLK_TCK")
TURN = "tick u\ntrap {0}\nsleep {0} 1 read.{1}\ngo {2}\nwake read.{1}\n"
FIRST = ["boot 200 0", "go 1", *(f"fork 1 {slot} at {17 * slot}" for slot in range(2, 6))]


def fields(name):
    """What the system tells of a process or a thread: its parent, and its processor time in seconds."""
    with open(name) as file:
        found = file.read().rpartition(")")[2].split()
    return int(found[1]), (int(found[11]) + int(found[12])) / TICKS


def processes(first):
    """The processor time of a process and of all that it has started, by their numbers."""
    parents, times = {}, {}
    for name in glob.glob("/proc/[0-9]*/stat"):
        try:
            number = int(name.split("/")[2])
            parents[number], times[number] = fields(name)
        except OSError:  # it has just ended
            pass
    wanted = {first}
    while more := {one for one, parent in parents.items() if parent in wanted} - wanted:
        wanted |= more
    return {number: times[number] for number in wanted if number in times}


def opened(name):
    """Of one opening: seconds, and processor time of the thread, its process and the browser."""
    one = browser.Browser()
    try:
        return opened_in(one, name)
    finally:
        one.close()


def opened_in(one, name):
    """The same in a browser that is there."""
    before, drawn = processes(one.process.pid), threads(one.process.pid)
    seconds = one.open(name)
    after = processes(one.process.pid)
    used = {number: time - before.get(number, 0) for number, time in after.items()}
    shows = max((number for number in used if is_renderer(number)), key=used.get)
    return seconds, threads(one.process.pid)[shows] - drawn.get(shows, 0), used[shows], sum(used.values())


def threads(first):
    """The processor time of the threads that run and draw pages, by the numbers of their processes."""
    return {number: fields(f"/proc/{number}/task/{number}/stat")[1] for number in processes(first) if is_renderer(number)}


def is_renderer(number):
    try:
        with open(f"/proc/{number}/cmdline", "rb") as file:
            return b"--type=renderer" in file.read()
    except OSError:  # it has just ended
        return False


def tell(times, pages):
    with tempfile.TemporaryDirectory() as folder:
        empty = os.path.join(folder, "empty.html")
        with open(empty, "w") as file:
            file.write(EMPTY)
        for name in [empty, *pages]:
            found = sorted(opened(name) for _ in range(times))[times // 2]
            size = os.path.getsize(name)
            print("{:24} {:9} bytes: {:5.2f} s; processor: {:5.2f} s of the thread, {:5.2f} of its process, {:5.2f} of all"
                  .format(os.path.basename(name), size, *found), flush=True)


def write_log(lines, name):
    with open(name, "w") as file:
        file.write("\n".join(FIRST) + "\n")
        left, turn = lines - len(FIRST) - 1, 0
        while left > 0:
            slot = turn % 5 + 1
            more = TURN.format(slot, turn % 97 + 1, (turn + 1) % 5 + 1).splitlines(True)[:left]
            file.writelines(more)
            left, turn = left - len(more), turn + 1
        file.write("end\n")


if __name__ == "__main__":
    words = sys.argv[1:]
    if len(words) == 3 and words[0] == "log" and words[1].isdecimal():
        sys.exit(write_log(int(words[1]), words[2]))
    if len(words) < 2 or not words[0].isdecimal() or not int(words[0]):
        sys.exit(__doc__)
    if not browser.FOUND:
        sys.exit("no browser is there: chromium is wanted")
    browser.LONGEST = LONGEST
    tell(int(words[0]), words[1:])
