#!/usr/bin/env python3
"""Makes the manual pages of v6 and its tools from those of docs."""
import argparse
import os
import sys

sys.path.insert(0, os.path.dirname(os.path.abspath(__file__)))
from v6.page.manual import PAGES, page


def main(words):
    parser = argparse.ArgumentParser(prog="manpages.py", description="Makes the manual pages of v6 and its tools.")
    parser.add_argument("folder", metavar="FOLDER", help="where man1, man5 and man7 are made")
    parser.add_argument("--lib", metavar="FOLDER", default="/usr/local/lib/v6", help="where the files are (/usr/local/lib/v6)")
    options = parser.parse_args(words)
    for name, section in PAGES:
        folder = os.path.join(options.folder, f"man{section}")
        os.makedirs(folder, exist_ok=True)
        with open(os.path.join(folder, f"{name}.{section}"), "w", encoding="utf-8") as file:
            file.write(page(name, section, options.lib))
    return 0


if __name__ == "__main__":
    sys.exit(main(sys.argv[1:]))
