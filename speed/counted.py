"""How many machine instructions a command takes, by valgrind's callgrind: the same at each run in the same environment."""
import re
import shutil
import subprocess
import sys


def run_with(core, command="run"):
    """The words of a run whose files stand in the folder in which it runs."""
    return [command, "image", f"{core}", "script", "term", "log", "final"]


def put(folder, script, image=None):
    """Makes the files that a run reads: its script, and where the disk isn't there yet its image."""
    with open(f"{folder}/script", "w", encoding="ascii") as file:
        file.write(script)
    if image is not None:
        with open(f"{folder}/image", "wb") as file:
            file.write(image)


def counted(words, folder=None, ends=(0,)):
    """What a command takes that runs in a folder. Where it ends with another status than these, all ends with what it said."""
    if not shutil.which("valgrind"):
        sys.exit("valgrind is wanted, which counts")
    run = ["valgrind", "--tool=callgrind", "--callgrind-out-file=/dev/null", *words]
    done = subprocess.run(run, cwd=folder, capture_output=True, text=True, check=False)
    if done.returncode not in ends:
        sys.exit(f"{' '.join(words)}: status {done.returncode}: {done.stdout}")
    return int(re.search(r"Collected : (\d+)", done.stderr)[1])
