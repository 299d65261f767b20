#!/usr/bin/env python3
"""Puts v6, its tools and their pages below a prefix, and takes them away: `make install`, see docs/tools/README.md."""
import signal

if __name__ == "__main__":
    signal.signal(signal.SIGINT, signal.SIG_DFL)  # an interrupt before main ends it without a word

import argparse
import compileall
import hashlib
import itertools
import json
import os
import re
import shutil
import sys

sys.path.insert(0, os.path.dirname(os.path.abspath(__file__)))
from v6.host.files import guarded, read_bytes, replace
from v6.host.program import TOP
from v6.page.manual import PAGES, TOOLS, installed, installed_page, page

LIB = "lib/v6"
KNOWN = LIB + "/installed"  # the file that tells what was put
AT_HOME = ("tools/completion.bash", "tools/install.py", "tools/manpages.py", "tools/row.py", "tools/v6/rows/", "tools/dev/",
           "tools/tests/")  # what is for the repository alone, or put elsewhere
DOCS = ("docs/lions", "docs/manual", "docs/tools")
COMPLETION = "share/bash-completion/completions"
UNFIT = re.compile(r"[^\S ]|[\"'\\`$]")  # what a prefix can't have, since commands and pages name it
WRAPPER = """#!/bin/sh
exec python3 "$(dirname "$(realpath "$0")")/../{lib}/tools/{name}.py" "$@"
"""


def below(folder):
    """The names of all files below a folder of the repository, but for what Python has compiled."""
    for place, folders, names in sorted(os.walk(os.path.join(TOP, folder))):
        folders[:] = sorted(set(folders) - {"__pycache__"})
        for name in sorted(names):
            yield os.path.relpath(os.path.join(place, name), TOP)


def sources():
    """The files of the repository that are installed."""
    yield "bin/v6"
    for name in below("tools"):
        if not name.startswith(AT_HOME):
            yield name
    for folder in ("examples", *DOCS):
        yield from below(folder)


def parts(prefix):
    """What is put, by its name below the prefix: bytes and a mode, or where a link leads."""
    names, lib = list(sources()), os.path.join(prefix, LIB)
    for name in names:
        place = os.path.join(TOP, name)
        data = read_bytes(place)
        if name.endswith(".md"):
            data = installed_page(data.decode(), name, set(names), lib).encode()
        elif name.endswith(".py"):
            data = installed(data.decode(), lib).encode()  # a tool calls itself, in what it says, as it is called
        yield f"{LIB}/{name}", (data, 0o755 if os.access(place, os.X_OK) else 0o644)
    yield "bin/v6", f"../{LIB}/bin/v6"
    for name in TOOLS:
        yield f"bin/v6-{name}", (WRAPPER.format(lib=LIB, name=name).encode(), 0o755)
        yield f"{COMPLETION}/v6-{name}", "v6"
    yield f"{COMPLETION}/v6", (read_bytes(os.path.join(TOP, "tools", "completion.bash")), 0o644)
    yield "share/doc/v6", f"../../{LIB}/docs"
    for name, section in PAGES:
        yield f"share/man/man{section}/{name}.{section}", (page(name, section, lib).encode(), 0o644)


def sum_of(part):
    """A sum of what a part is, be it a file or a link."""
    return hashlib.sha256(b"link " + part.encode() if isinstance(part, str) else b"file " + part[0]).hexdigest()


def sum_at(place):
    """The same of what stands at a place, or None where nothing does."""
    if os.path.islink(place):
        return sum_of(os.readlink(place))
    return sum_of((read_bytes(place), 0)) if os.path.lexists(place) else None


def known(root):
    """What was put below this folder: the sums by name, and the folders that were made for it."""
    place = os.path.join(root, KNOWN)
    if not os.path.exists(place):
        return {}, []
    told = json.loads(read_bytes(place))
    return told["sums"], told["folders"]


def wanted_folders(root, names):
    """The folders that the names want below the root and that are not there, each after the one that it is in."""
    found = set()
    for name in names:
        folder = os.path.dirname(os.path.join(root, name))
        while not os.path.isdir(folder) and folder not in found:
            found.add(folder)
            folder = os.path.dirname(folder)
            if os.path.lexists(folder) and not os.path.isdir(folder):
                raise NotADirectoryError(20, os.strerror(20), folder)
        if os.path.isdir(folder) and not os.access(folder, os.W_OK | os.X_OK):
            raise PermissionError(13, os.strerror(13), folder)
    return sorted(found)


def keep(place):
    """Puts what stands at a place beside it, under the first name that is free."""
    beside = next(name for name in (f"{place}.{n}" for n in itertools.count(1)) if not os.path.lexists(name))
    os.rename(place, beside)
    print(f"install.py: {place} isn't as it was installed, and is {beside} now", file=sys.stderr)


def put(place, part):
    if isinstance(part, str):
        if os.path.lexists(place):
            os.unlink(place)
        os.symlink(part, place)
    else:
        replace(place, part[0], part[1])
        os.chmod(place, part[1])


def forget(root):
    """Takes away what Python has compiled."""
    for place in [place for place, _, _ in os.walk(os.path.join(root, LIB, "tools")) if os.path.basename(place) == "__pycache__"]:
        shutil.rmtree(place, ignore_errors=True)


def install(root, prefix):
    """Puts all parts. A file in the place of one, that isn't as it was put or was never put, is kept beside it."""
    new, (old, folders) = dict(parts(prefix)), known(root)
    made = wanted_folders(root, [*new, KNOWN])
    for folder in made:
        os.mkdir(folder)
    for name, part in sorted(new.items()):
        place = os.path.join(root, name)
        stands = sum_at(place)
        if stands not in (None, old.get(name), sum_of(part)):
            keep(place)
        put(place, part)
    for name in sorted(set(old) - set(new)):
        take(os.path.join(root, name), old[name])
    forget(root)
    compileall.compile_dir(os.path.join(root, LIB, "tools"), maxlevels=2, quiet=2, stripdir=root, prependdir=prefix)
    sums = {name: sum_of(part) for name, part in sorted(new.items())}
    folders += [os.path.relpath(folder, root) for folder in made]
    replace(os.path.join(root, KNOWN), (json.dumps({"sums": sums, "folders": folders}, indent=0) + "\n").encode())


def take(place, put_there):
    """Removes what stands at a place, where it still is what was put there."""
    stands = sum_at(place)
    if stands == put_there:
        os.unlink(place)
    elif stands is not None:
        print(f"install.py: {place} isn't as it was installed, and stays", file=sys.stderr)


def uninstall(root, prefix):
    """Takes away what was put, but for files that were changed since; and the folders that were made, where they are empty."""
    sums, folders = known(root)
    if not sums:
        print(f"install.py: {root}: v6 isn't installed there", file=sys.stderr)
        return 1
    for name in sorted(sums):
        if not os.access(os.path.dirname(os.path.join(root, name)), os.W_OK):
            raise PermissionError(13, os.strerror(13), os.path.dirname(os.path.join(root, name)))
    for name in sorted(sums):
        take(os.path.join(root, name), sums[name])
    forget(root)
    os.unlink(os.path.join(root, KNOWN))
    for folder in sorted((os.path.normpath(os.path.join(root, name)) for name in folders), reverse=True):
        if os.path.isdir(folder) and not os.listdir(folder):
            os.rmdir(folder)
    return 0


def main(words):
    parser = argparse.ArgumentParser(prog="install.py", description="Installs v6 and its tools, for make: docs/tools/README.md")
    parser.add_argument("command", choices=("install", "uninstall"))
    parser.add_argument("prefix", metavar="PREFIX", help="where it is to be, as /usr/local")
    parser.add_argument("destdir", metavar="DESTDIR", nargs="?", default="", help="a folder that stands before it for now")
    options = parser.parse_args(words)
    prefix = os.path.abspath(os.path.expanduser(options.prefix or "/"))
    if UNFIT.search(prefix):
        parser.error(f"{prefix!r}: a name without quotes, tabs and backslashes is wanted")
    root = os.path.abspath(options.destdir) + prefix if options.destdir else prefix
    does = {"install": install, "uninstall": uninstall}[options.command]
    return guarded("install.py", lambda: does(os.path.normpath(root), prefix))


if __name__ == "__main__":
    sys.exit(main(sys.argv[1:]))
