"""Programs that judge v6: README.md tells of them. They use modules of tools/v6, and of its tests."""
import os
import sys

TOP = os.path.dirname(os.path.dirname(os.path.realpath(__file__)))
sys.path.insert(0, os.path.join(TOP, "tools"))
