#!/usr/bin/env python3
"""Refuses the program each piece of memory that it asks for, one at a time, and judges what it answers.

    judge/compare/no_memory.py [COMMAND]

COMMAND is a built v6 (bin/v6). It needs cc and a program that is linked dynamically: a small library stands before malloc,
calloc and realloc, counts their calls, and refuses the one of a number, or all from that number on. For each command of v6 all
numbers are tried, both ways, over files that are there before and over names where nothing is. The answer must be status 8 and
the line `no memory`, or no line where the words themselves found none; and no file may have changed or come to be. An audit
takes memory for its words alone. Then the same commands run in address spaces of many sizes, where the system itself refuses
memory: each is done, with the files of a run in ample memory, or there is no memory as before.

The exit status is 1 where anything else was answered.
"""
import collections
import os
import resource
import shlex
import shutil
import subprocess
import sys
import tempfile

sys.path.insert(0, os.path.dirname(os.path.dirname(os.path.dirname(os.path.realpath(__file__)))))
from judge.fuzz.cases import HI, TOP, read

NO_MEMORY, DONE = 8, 0
THERE = b"what was there before\n" * 500
OUTPUTS = ("term", *(f"term.{line}" for line in range(1, 8)), "log", "final", "final2")
SCRIPT = b"clock 10\nrun 100\ntype abc\nrun 100\n"
LAWFUL = b"boot 64 0\nsleep 0 -100 runout\ngo 1\nexit 1 swap 4000\nidle\nend\n"
STEP, LEAST, MOST = 131072, 1 << 20, 16 << 20  # bytes of address spaces that are tried
ANSWERS = {"core size": b"core size\n", "image fault": b"image: bad super-block\n", "script fault": b"script: line 1\n",
           "second fault": b"second image: bad super-block\n", "unlawful log": b"log: line 7 is not lawful\n",
           "bad log": b"log: line 1 is no log line\n"}
COMMANDS = {
    "run": ("run", "image", "1200", "script", "term", "log", "final"),
    "run of a whole disk": ("run", "disk", "3968", "script", "term", "log", "final"),
    "run8": ("run8", "image", "1200", "script", "term", "log", "final"),
    "run2": ("run2", "image", "1200", "script", "term", "log", "final", "disk", "final2"),
    "memory": ("memory", "image", "1200", "script", "final"),
    "check": ("check", "disk"),
    "make": ("make", "7", "final"),
    "demo": ("demo", "7"),
    "audit": ("audit", "lawful"),
    "usage": ("walk", "image", "1200", "script", "term", "log", "final"),
    "core size": ("run", "image", "63", "script", "term", "log", "final"),
    "image fault": ("run", "script", "1200", "script", "term", "log", "final"),
    "script fault": ("run", "image", "1200", "image", "term", "log", "final"),
    "second fault": ("run2", "image", "1200", "image", "term", "log", "final", "script", "final2"),
    "unlawful log": ("audit", "twice"),
    "bad log": ("audit", "image"),
}
LIBRARY = r"""
#define _GNU_SOURCE
#include <dlfcn.h>
#include <fcntl.h>
#include <stdlib.h>
#include <unistd.h>

static void *(*to_malloc)(size_t), *(*to_calloc)(size_t, size_t), *(*to_realloc)(void *, size_t);
static long count, first, last;

__attribute__((constructor)) static void begin(void)
{
    const char *from = getenv("REFUSED_FROM"), *to = getenv("REFUSED_TO");
    to_malloc = dlsym(RTLD_NEXT, "malloc");
    to_calloc = dlsym(RTLD_NEXT, "calloc");
    to_realloc = dlsym(RTLD_NEXT, "realloc");
    count = 0;
    first = from ? atol(from) : 0;
    last = to ? atol(to) : 0;
}

__attribute__((destructor)) static void end(void)
{
    const char *name = getenv("REFUSED_COUNT");
    int file = name ? open(name, O_WRONLY | O_CREAT | O_TRUNC, 0666) : -1;
    if (file >= 0 && write(file, &count, sizeof count) < 0)
        _exit(99);
}

static int refused(void)
{
    count++;
    return first <= count && count <= last;
}

void *malloc(size_t size) { return refused() ? 0 : to_malloc(size); }
void *calloc(size_t number, size_t size) { return !to_calloc || refused() ? 0 : to_calloc(number, size); }
void *realloc(void *old, size_t size) { return refused() ? 0 : to_realloc(old, size); }
"""

Came = collections.namedtuple("Came", "status report files")


class Tries:
    """A program in a folder with its files, and what was answered otherwise than it may be."""

    def __init__(self, command, folder):
        self.command, self.folder, self.wrong = command, folder, 0
        self.library = os.path.join(folder, "refuses.so")
        with open(f"{folder}/refuses.c", "w", encoding="ascii") as file:
            file.write(LIBRARY)
        subprocess.run(["cc", "-O1", "-shared", "-fPIC", "-o", self.library, f"{folder}/refuses.c", "-ldl"], check=True)
        self.write("image", read(HI))
        self.write("script", SCRIPT)
        self.write("lawful", LAWFUL)
        self.write("twice", LAWFUL * 2)
        subprocess.run([*command, "make", "12", f"{folder}/disk"], check=True)

    def path(self, name):
        return os.path.join(self.folder, name)

    def write(self, name, data):
        with open(self.path(name), "wb") as file:
            file.write(data)

    def put_outputs(self, are_there):
        for name in OUTPUTS:
            if are_there:
                self.write(name, THERE)
            elif os.path.exists(self.path(name)):
                os.remove(self.path(name))

    def outputs(self):
        return {name: read(self.path(name)) if os.path.exists(self.path(name)) else None for name in OUTPUTS}

    def call(self, words, are_there, preexec=None, **environment):
        """What a command comes to."""
        self.put_outputs(are_there)
        done = subprocess.run([*self.command, *words], cwd=self.folder, capture_output=True, check=False, preexec_fn=preexec,
                              env={**os.environ, **environment})
        return Came(done.returncode, done.stdout + done.stderr, self.outputs())

    def refusing(self, words, first, last, are_there=False):
        """The same where calls for memory are refused, and the number of all such calls."""
        numbers = {"REFUSED_FROM": str(first), "REFUSED_TO": str(last), "REFUSED_COUNT": self.path("count")}
        came = self.call(words, are_there, LD_PRELOAD=self.library, **numbers)
        return came, int.from_bytes(read(self.path("count")), "little")

    def judge(self, what, came, are_there, is_of_words):
        """Whether there was no memory, and nothing but that."""
        report = b"" if is_of_words else b"no memory\n"
        untouched = {name: THERE if are_there else None for name in OUTPUTS}
        if came != (NO_MEMORY, report, untouched):
            changed = [name for name in OUTPUTS if came.files[name] != untouched[name]]
            print(f"{what}: status {came.status} {came.report[:200]!r}" + (f", and {changed} changed" if changed else ""))
            self.wrong += 1

    def each_refused(self, name, words):
        """Refuses each call for memory of a command."""
        _, of_words = self.refusing(("x" * len(words[0]), *words[1:]), 0, 0)  # no command: it takes memory for its words alone
        ample, count = self.refusing(words, 0, 0)
        if ample.status not in (DONE, 1) and ANSWERS.get(name) != ample.report:
            print(f"{name}: status {ample.status} {ample.report!r} in ample memory")
            self.wrong += 1
        if words[0] == "audit" and count > of_words:
            print(f"{name}: {count - of_words} pieces of memory beside those of the words")
            self.wrong += 1
        for number in range(1, count + 1):
            for last in (number, 1 << 40):
                for are_there in (False, True):
                    came, _ = self.refusing(words, number, last, are_there)
                    what = f"{name}, refused {number}{'' if last == number else ' and later'}"
                    self.judge(what, came, are_there, number <= of_words)
        print(f"{name}: {count} pieces of memory, of which {min(of_words, count)} are of the words", flush=True)

    def in_spaces(self, name, words):
        """Runs a command in address spaces of many sizes."""
        ample, counts = self.call(words, True), collections.Counter()
        for size in range(LEAST, MOST, STEP):
            came = self.call(words, True, lambda size=size: resource.setrlimit(resource.RLIMIT_AS, (size, size)))
            if came.status == 127 or came.status < 0 and not came.report or b"error while loading" in came.report:
                counts["not begun"] += 1
                if came.files != {name: THERE for name in OUTPUTS}:
                    print(f"{name} in {size} bytes: files changed")
                    self.wrong += 1
            elif came == ample:
                counts["as in ample memory"] += 1
            else:
                counts["no memory"] += 1
                self.judge(f"{name} in {size} bytes", came, True, came.report == b"" or words[0] == "audit")
        print(f"{name}: in address spaces of {LEAST} to {MOST} bytes", dict(counts), flush=True)


def main(words):
    if len(words) > 1 or words and not shutil.which(shlex.split(words[0])[0]):
        sys.exit(__doc__)
    command = shlex.split(words[0] if words else f"{TOP}/bin/v6")
    command[0] = os.path.abspath(command[0]) if os.sep in command[0] else command[0]
    with tempfile.TemporaryDirectory() as folder:
        tries = Tries(command, folder)
        for name, one in COMMANDS.items():
            tries.each_refused(name, one)
        for name, one in COMMANDS.items():
            tries.in_spaces(name, one)
    print(f"{tries.wrong} answers are wrong")
    return bool(tries.wrong)


if __name__ == "__main__":
    sys.exit(main(sys.argv[1:]))
