"""The page of commands has each line that the program can report."""
import os
import re

from tests.common import TOP, Case, read, v6

SOURCE = os.path.join(TOP, "crates", "v6_run", "src", "report.rt")
PAGE = os.path.join(TOP, "docs", "manual", "commands.md")
# a report that failed isn't followed by another
NEVER = ("write fault: report",)


def reported():
    """The texts of the reports in the source, with a mark for each number."""
    text = re.sub(r"\\\n *", "", read(SOURCE).decode())  # a text may go on in the next line of the source
    constants = dict(re.findall(r'const (\w+): &str =\s*"([^"]*)";', text))
    found = [constants.get(name, name.strip('"')) for name in re.findall(r'\bplain\(("[^"]*"|[A-Z]+)\)', text)]
    for call in re.findall(r"numbered\(((?:[^()]|\([^()]*\))*)\)", text):
        found.append("#".join(re.findall(r'"([^"]*)"', call)))
    pushed = re.search(r'line\.push_str\("demo "\);.*?line\n', text, re.DOTALL)[0]
    found.append("#".join(re.findall(r'push_str\("([^"]*)"\)', pushed)).removesuffix("\\n"))
    return found


class CommandsPage(Case):
    def table(self):
        """The lines of the table of reports, with a mark for each number."""
        section = read(PAGE).decode().split("## Report lines")[1].split("\n## ")[0]
        cells = [row.split(" | ")[0] for row in section.split("\n") if row.startswith("| `")]
        usage = re.search(r"`(usage: [^`]*)`", section)[1]
        lines = [line for cell in cells for line in re.findall(r"`([^`]*)`", cell)]
        return [usage] + [re.sub(r"(?:\b|(?<=line))[NMFBI]\b", "#", line) for line in lines if line != usage]

    def test_each_line_is_there(self):
        self.assertEqual(sorted(set(reported()) - set(NEVER)), sorted(self.table()))

    def test_usage(self):
        self.assertEqual(v6(), (1, self.table()[0] + "\n"))
