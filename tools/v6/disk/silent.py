"""Why a disk shows nothing: what process 1 wants of it isn't there."""
from v6.disk.volume import DiskError, Volume

TRIED = b"\ntrap 1\n"  # process 1 has come out of its exec
WAY_ON = "nothing can run on it. A disk that was mounted goes beside one that runs: --second, docs/tools/pack.md"


def never_runs(log):
    """Whether process 1 has come out of its exec without a program: it goes round for ever, and nobody else is there."""
    return b"\nimage 1 " not in log and TRIED in log


def why_silent(image, log):
    """Why nothing is shown on the terminal of a disk that has been run, as far as the disk tells, or None."""
    volume = Volume(image)
    if never_runs(log):
        has_none = not has(volume, b"etc/init")
        return f"the disk has no /etc/init, so {WAY_ON}" if has_none else "the disk's /etc/init can't be executed, so nothing can run on it"
    return None if b"\nimage 1 " not in log or has(volume, b"dev/tty8") else "the disk has no /dev/tty8"


def has(volume, path):
    try:
        volume.find(path)
        return True
    except DiskError:
        return False
