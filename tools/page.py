#!/usr/bin/env python3
"""Makes a page of a run, which a browser shows step by step: see docs/tools/page.md."""
import signal

if __name__ == "__main__":
    signal.signal(signal.SIGINT, signal.SIG_DFL)  # an interrupt before main ends it without a word

import os
import sys

sys.path.insert(0, os.path.dirname(os.path.abspath(__file__)))
from v6.page.command import main

if __name__ == "__main__":
    sys.exit(main(sys.argv[1:]))
