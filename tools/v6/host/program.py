"""The program v6: which command it is, and what it answers."""
import argparse
import contextlib
import functools
import hashlib
import os
import shlex
import signal

TOP = os.path.dirname(os.path.dirname(os.path.dirname(os.path.dirname(os.path.realpath(__file__)))))  # also where tools/ is a link
CORE = 3968  # clicks: as much as a machine may have; 1200 are too few for a larger program
FAULTS = {"image: ": "image", "second image: ": "second", "script: ": "script"}  # how the program tells the fault of a file
V6 = os.environ.get("V6") or shlex.quote(os.path.join(TOP, "bin", "v6"))


class Version(argparse.Action):
    """Tells which program the tools stand beside: the first digits of the sha256 of bin/v6."""

    def __call__(self, parser, *_):
        name = os.path.join(TOP, "bin", "v6")
        try:
            with open(name, "rb") as file:
                digest = hashlib.sha256(file.read()).hexdigest()[:12]
        except OSError as error:
            parser.exit(1, f"{parser.prog}: {name}: {error.strerror}: --version tells the program beside the tool\n")
        print(f"{parser.prog} of the repository whose bin/v6 is {digest}")
        parser.exit()


def add_version(parser):
    parser.add_argument("--version", action=Version, nargs=0, help="which program stands beside this tool")


class ProgramError(Exception):
    """Why the program can't be started; the text tells it."""


@functools.lru_cache(maxsize=16)
def parted(command):
    """The words of a command, which many runs have before their own."""
    return tuple(shlex.split(command))


def started(words, stdin, output):
    """Starts a program whose two outputs go to an open file, and its input comes from one, where there is one; gives its number. Many runs
    are made one after the other, and subprocess takes several times as long to start each."""
    actions = [(os.POSIX_SPAWN_DUP2, output, number) for number in (1, 2)]
    actions += [(os.POSIX_SPAWN_DUP2, stdin, 0)] if stdin is not None else []
    return os.posix_spawnp(words[0], words, os.environ, file_actions=actions, setsigdef=(signal.SIGPIPE, signal.SIGXFSZ))


def read_all(handle):
    """What comes out of an open file up to its end."""
    found = []
    while data := os.read(handle, 65536):
        found.append(data)
    return b"".join(found)


def run(words, stdin=None):
    """The status of a program, and the bytes of its outputs. It is ended where this is interrupted."""
    source, to = os.pipe()
    try:
        try:
            number = started(words, stdin, to)
        finally:
            os.close(to)
        try:
            said = read_all(source)
            return os.waitstatus_to_exitcode(os.waitpid(number, 0)[1]), said
        except BaseException:
            with contextlib.suppress(OSError):  # it may have ended
                os.kill(number, signal.SIGKILL)
                os.waitpid(number, 0)
            raise
    finally:
        os.close(source)


def call(command, *words, data=None):
    """The program's status, and the line that it says. It gets these bytes as its standard input."""
    with contextlib.ExitStack() as files:
        stdin = None
        if data is not None:
            import tempfile

            file = files.enter_context(tempfile.TemporaryFile(buffering=0))
            file.write(data)
            file.seek(0)
            stdin = file.fileno()
        try:
            status, said = run([*(parted(command) or [""]), *words], stdin)
        except (OSError, ValueError) as error:
            why = error.strerror if isinstance(error, OSError) else error
            raise ProgramError(f"{command}: {why}: the program v6 is wanted; --v6 names it") from None
    said = said.decode("utf-8", "replace").strip()
    return status, said or f"status {status}"


def named(said, files, core):
    """What the program says, with the name of the file at fault, and why it can't be read, or with the size of core."""
    for port, name in files.items():
        if said == f"read fault: {port}":
            try:
                with open(name, "rb") as file:
                    file.read(1)
            except OSError as error:
                return f"{name}: {error.strerror}"
            return f"{name}: {said}"
    for begins, port in FAULTS.items():
        if said.startswith(begins) and files.get(port):
            return f"{files[port]}: {said.removeprefix(begins)}"
    return f"{said}: {core} clicks, and 64 to 3968 are wanted" if said == "core size" else said
