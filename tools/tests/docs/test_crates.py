"""The tables of modules in the READMEs of the crates: each public call of a crate stands in the row of its module, and no other."""
import os
import re
import unittest

from tests.common import TOP, read

CRATES = os.path.join(TOP, "crates")
NAMES = re.compile(r"`(\w+)`")


def text_of(*path):
    return read(os.path.join(CRATES, *path)).decode()


def exported(crate):
    """The names that a crate hands out at its root."""
    root = text_of(crate, "src", "lib.rt")
    used = re.findall(r"^pub use ([^;]+);", root, re.M)
    return {name for names in used for name in re.findall(r"\w+", names)} | set(re.findall(r"^pub fn (\w+)", root, re.M))


def calls(source, names):
    """The public functions of a file that are among these names, and the methods of types that are."""
    found, owner = [], None
    for line in source.splitlines():
        head = re.match(r"impl(?:<[^>]*>)?\s+(?:(\w+)(?:<[^>]*>)?\s+for\s+)?(\w+)", line)
        if head:
            owner = None if head[1] else head[2]
        call = re.match(r"(\s*)pub (?:const )?fn (\w+)", line)
        if call and (owner if call[1] else call[2]) in names and call[2] not in found:
            found.append(call[2])
    return found


class Crates(unittest.TestCase):
    def test_modules(self):
        seen = 0
        for crate in sorted(os.listdir(CRATES)):
            table = text_of(crate, "README.md").partition("## Modules\n")[2] if os.path.isdir(os.path.join(CRATES, crate)) else ""
            rows = dict(re.findall(r"^\| `([\w/]+)` \| .* \| ([^|]*) \|$", table, re.M))
            if not rows:
                continue
            names, found = exported(crate), {}
            for place, _, files in os.walk(os.path.join(CRATES, crate, "src")):
                for file in sorted(name for name in files if name.endswith(".rt") and name != "main.rt"):
                    path = os.path.join(place, file)
                    told = calls(read(path).decode(), names)
                    if told:
                        found[os.path.relpath(path, os.path.join(CRATES, crate, "src"))[:-3]] = told
            self.assertEqual({module: NAMES.findall(row) for module, row in rows.items()}, found, crate)
            seen += 1
        self.assertGreater(seen, 30)


if __name__ == "__main__":
    unittest.main()
