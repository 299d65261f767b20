"""Files of the host that the tools read and write."""
import contextlib
import errno
import os
import signal
import stat
import sys
import tempfile

BLOCK = 512  # in which holes are counted
DISK = 4872 * BLOCK  # bytes of a disk
IN_MEMORY, ROOM = "/dev/shm", 2**31  # where many hosts keep files in memory, and how many bytes must be free there
MOST = 2**28  # bytes of a file that is read whole
INTERRUPTS = signal.SIGINT, signal.SIGTERM, signal.SIGHUP
STREAMS = ("-", b"-", "/dev/stdout", b"/dev/stdout")


def told(error):
    """What an OSError says, after the name of its file, where it has one."""
    name = "" if error.filename is None else (os.fsdecode(error.filename) or "''") + ": "
    return f"{name}{error.strerror}"


def guarded(tool, body, *known, failed=1):
    """The status of a tool: what `body` gives, or `failed` where it fails with an error of the host or a known one, which is
    told in a line. An interrupt, also by another program's signal, ends it as an error does, so that nothing is left beside a
    file; so does a pipe that is closed, without a word."""
    for number in INTERRUPTS:
        if signal.getsignal(number) == signal.SIG_DFL:
            signal.signal(number, _interrupt)
    try:
        status = body() or 0
        sys.stdout.flush()
        return status
    except BrokenPipeError:
        os.dup2(os.open(os.devnull, os.O_WRONLY), 1)
        return 128 + signal.SIGPIPE
    except OSError as error:
        print(f"{tool}: {told(error)}", file=sys.stderr)
    except known as error:
        print(f"{tool}: {error}", file=sys.stderr)
    except KeyboardInterrupt:
        return 128 + signal.SIGINT
    return failed


def _interrupt(*_):
    raise KeyboardInterrupt


@contextlib.contextmanager
def uninterrupted():
    """Holds interrupts back while a file is made, until its maker knows the name by which to remove it."""
    before = signal.pthread_sigmask(signal.SIG_BLOCK, INTERRUPTS)
    try:
        yield
    finally:
        signal.pthread_sigmask(signal.SIG_SETMASK, before)


def read_bytes(name, most=None):
    """The bytes of a file, or the first of them; those of the standard input for `-`. A file without an end, as /dev/zero, is
    refused."""
    if name in ("-", b"-"):
        return sys.stdin.buffer.read(most or -1)
    try:
        with open(name, "rb") as file:
            data = file.read(most or MOST + 1)
    except OSError as error:  # one of a read names no file
        raise OSError(error.errno, error.strerror, name) from None
    if not most and len(data) > MOST:
        raise OSError(errno.EFBIG, f"more than {MOST} bytes", name)
    return data


def short(image):
    """An image without the zeros at its end, with which a shorter one counts as filled up: the program reads less, and the disk is the
    same. One that is too long stays so."""
    size = len(image.rstrip(b"\0")) if len(image) <= DISK else len(image)
    return image[: -(-size // BLOCK) * BLOCK]


def folder_of_runs():
    """A folder that goes again, for the files of many runs, each of which is read at once: in memory, where the host has room there and
    nobody wants another place."""
    place = None
    with contextlib.suppress(OSError):
        found = os.statvfs(IN_MEMORY)
        if "TMPDIR" not in os.environ and os.access(IN_MEMORY, os.W_OK | os.X_OK) and found.f_bavail * found.f_frsize >= ROOM:
            place = IN_MEMORY
    return tempfile.TemporaryDirectory(dir=place)


def read_sparse(name):
    """The bytes of a file, and the numbers of the blocks that lie in its holes."""
    if name in ("-", b"-"):
        return sys.stdin.buffer.read(), []
    with open(name, "rb") as file:
        data = file.read()
        return data, holes_of(file.fileno(), len(data))


def holes_of(handle, size):
    """The blocks of an open file, of this size, that lie in holes. A host that doesn't tell has none."""
    holes, at = [], 0
    try:
        while at < size:
            try:
                start = min(os.lseek(handle, at, os.SEEK_DATA), size)
            except OSError as error:
                if error.errno != errno.ENXIO:
                    raise
                start = size
            end = -(-size // BLOCK) if start == size else start // BLOCK
            holes += range(-(-at // BLOCK), end)
            at = os.lseek(handle, start, os.SEEK_HOLE) if start < size else size
    except OSError:
        return []
    return holes


def write_sparse(file, data, holes):
    """Writes bytes to a new file, but not the blocks of its holes."""
    without = set(holes)
    for at in range(0, len(data), BLOCK):
        if at // BLOCK not in without:
            file.seek(at)
            file.write(data[at : at + BLOCK])
    file.truncate(len(data))


def same_file(one, other):
    """Whether two names, of which one may be missing, are of one file."""
    return bool(one and other) and os.path.realpath(one) == os.path.realpath(other)


def place_of(name):
    """Where the bytes of a file are to go: through symbolic links, and not in the place of a folder, of a device, as
    /dev/null, or of a file that can't be written. OSError says why."""
    place = os.path.realpath(name)
    if os.path.isdir(place):
        raise IsADirectoryError(errno.EISDIR, os.strerror(errno.EISDIR), name)
    if os.path.exists(place) and not os.path.isfile(place):
        raise OSError(errno.EINVAL, "not a file, and only a file is replaced", name)
    if not os.access(place if os.path.exists(place) else os.path.dirname(place), os.W_OK):
        code = errno.EACCES if os.path.isdir(os.path.dirname(place)) else errno.ENOENT
        raise OSError(code, os.strerror(code), name)
    return place


def put_out(name, data, mode=0o644):
    """The bytes of an output: a file is replaced, and `-` and /dev/stdout are the standard output."""
    if name in STREAMS:
        sys.stdout.flush()
        sys.stdout.buffer.write(data)
        sys.stdout.buffer.flush()
    else:
        replace(name, data, mode)


def replace(name, data, mode=0o644, look=None, holes=()):
    """Makes these the bytes of a file. They are written beside it first, and `look` is asked about them there, so that the
    file is never half written. One that is there keeps its permissions."""
    place, beside = place_of(name), None
    try:
        prefix = b".new-" if isinstance(name, bytes) else ".new-"
        with uninterrupted():
            handle, beside = tempfile.mkstemp(dir=os.path.dirname(place), prefix=prefix)
        with os.fdopen(handle, "wb") as file:
            if holes:
                write_sparse(file, data, holes)
            else:
                file.write(data)
        os.chmod(beside, stat.S_IMODE(os.stat(place).st_mode) if os.path.exists(place) else mode)
        if look:
            look(beside)
        os.replace(beside, place)
    except OSError as error:
        raise OSError(error.errno, error.strerror, name) from None
    finally:
        if beside and os.path.lexists(beside):
            os.unlink(beside)
