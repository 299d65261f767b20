#!/usr/bin/env python3
"""Runs all tests of the tools, or those of files and folders below tools/tests that are named, as disk or run/test_try.py; those of one
class in one process, or of several that share something. As many processes are at work as there are processors, or as --jobs says. With
--times it tells how long a processor worked for each class, the dearest first, and for all. A class that takes longer than half an hour ends all, and where it stands is told. The program v6 is bin/v6, or the command in the
environment's V6."""
import argparse
import contextlib
import faulthandler
import io
import multiprocessing
import os
import resource
import signal
import sys
import tempfile
import time
import unittest
from concurrent.futures import ProcessPoolExecutor, TimeoutError, wait
from concurrent.futures.process import BrokenProcessPool

LONGEST = 1800  # seconds that a class may take: thirty times what the longest takes
MOMENT, PATIENCE = 1, 20  # seconds between two looks at the processes of tests; and, when all classes are done, until what is left is ended
PR_SET_CHILD_SUBREAPER = 36  # of prctl(2)
ENDING = signal.SIGINT, signal.SIGQUIT, signal.SIGTERM, signal.SIGHUP, signal.SIGALRM, signal.SIGPIPE
HERE = os.path.dirname(os.path.abspath(__file__))
TOOLS = os.path.dirname(HERE)  # where the packages of the tests and of the tools are
sys.path.insert(0, TOOLS)
from v6.host.progress import Progress


def classes(suite):
    """The names of the test classes in a suite, each with what it shares with others, or its own name."""
    for one in suite:
        if isinstance(one, unittest.TestSuite):
            yield from classes(one)
        else:
            name = f"{type(one).__module__}.{type(one).__qualname__}"
            yield getattr(one, "shares", name), name


def worked():
    """How long processors have worked for this process and for those that it has started and that have ended, in seconds."""
    return sum(used.ru_utime + used.ru_stime for used in map(resource.getrusage, (resource.RUSAGE_SELF, resource.RUSAGE_CHILDREN)))


def handlers_now():
    """What is done at each signal that may end a process."""
    return {number: signal.getsignal(number) for number in ENDING}


@contextlib.contextmanager
def held_back():
    """Has what this process and those that it starts say on the standard error in a file: this error, as it was, and the file."""
    error = os.dup(2)
    with tempfile.TemporaryFile() as beside:
        sys.stderr.flush()
        os.dup2(beside.fileno(), 2)
        try:
            yield error, beside
        finally:
            sys.stderr.flush()
            os.dup2(error, 2)
            os.close(error)


def run_all(names):
    return [run(name) for name in names]


def run(name):
    """How many tests a class has, how many failed, what is to be said of these, why others were skipped, and how long it took. What tools
    say on the standard error beside the tests stands with the failures."""
    out, before, handlers = io.StringIO(), worked(), handlers_now()
    with held_back() as (error, beside):
        faulthandler.dump_traceback_later(LONGEST, exit=True, file=error)
        done = unittest.TextTestRunner(out).run(unittest.defaultTestLoader.loadTestsFromName(name))
        faulthandler.cancel_dump_traceback_later()
        beside.seek(0)
        more = beside.read().decode("utf-8", "replace")
    failed = len(done.failures) + len(done.errors) + len(done.unexpectedSuccesses)
    said = "" if done.wasSuccessful() else out.getvalue() + more
    if handlers != handlers_now():  # by which a later test would not be ended where it should
        failed, said = failed + 1, f"{said}{name} leaves a handler of a signal\n"
        for number, handler in handlers.items():
            signal.signal(number, handler)
    return done.testsRun, failed, said, [why for _, why in done.skipped], worked() - before


def options_of(words):
    parser = argparse.ArgumentParser(prog="run.py", description=__doc__)
    parser.add_argument("places", nargs="*", metavar="PLACE", help="a folder or a file of tests; all without one")
    parser.add_argument("--jobs", type=int, metavar="N", help="how many processes are at work at a time")
    parser.add_argument("--times", action="store_true", help="tell how long a processor worked for each class")
    return parser.parse_args(words)


def adopt():
    """Becomes the parent of each process that loses its own, where the host lets it."""
    with contextlib.suppress(ImportError, OSError, AttributeError):
        import ctypes

        ctypes.CDLL(None).prctl(PR_SET_CHILD_SUBREAPER, 1, 0, 0, 0)


def parents():
    """Of each process that is there, but those that have ended, by its number its parent's."""
    found = {}
    for name in filter(str.isdecimal, os.listdir("/proc") if os.path.isdir("/proc") else ()):
        with contextlib.suppress(OSError, ValueError), open(f"/proc/{name}/stat", encoding="ascii", errors="replace") as file:
            state, parent, *_ = file.read().rpartition(")")[2].split()
            if state != "Z":
                found[int(name)] = int(parent)
    return found


def left(own):
    """The numbers of the processes that this one has started, or one of these."""
    found, known = {own}, parents()
    while more := {number for number, parent in known.items() if parent in found} - found:
        found |= more
    return found - {own}


def clear(patience=PATIENCE):
    """Ends what is left, after a while: a process of tests that doesn't end by itself, and whatever was started and nobody waits for. Else
    who reads what this tells would wait for its end."""
    end = time.monotonic() + patience
    while multiprocessing.active_children() and time.monotonic() < end:
        time.sleep(0.01)
    while numbers := left(os.getpid()):
        for number in numbers:
            with contextlib.suppress(OSError):
                os.kill(number, signal.SIGKILL)
        time.sleep(0.01)


def results_of(groups, jobs):
    """What each class came to. That a process of tests has ended is looked for here, since one that it has begun may hold the pipe by which
    it would be told."""
    pool = ProcessPoolExecutor(jobs, initializer=signal.signal, initargs=(signal.SIGTERM, signal.SIG_DFL))
    try:
        futures = [pool.submit(run_all, names) for names in groups]
        working = set(multiprocessing.active_children())
        with Progress("tests/run.py") as progress:
            while wait(futures, MOMENT).not_done and working <= set(multiprocessing.active_children()):
                progress.tell(f"{sum(future.done() for future in futures)} of {len(futures)} classes of tests have ended")
        return [one for future in futures for one in future.result(0)]
    except (BrokenProcessPool, TimeoutError):
        sys.exit("a process of tests has ended, or its class took too long")
    finally:
        pool.shutdown(wait=False, cancel_futures=True)
        clear()


@contextlib.contextmanager
def compiled_once():
    """Has Python compile each module of the tools once for all programs that the tests start, into a folder that goes at the end, and
    so not beside the sources."""
    with tempfile.TemporaryDirectory() as folder:
        os.environ.pop("PYTHONDONTWRITEBYTECODE", None)
        os.environ["PYTHONPYCACHEPREFIX"] = folder
        yield


def wanted(places):
    """The names of modules in which tests are wanted, and of folders of them."""
    for place in places:
        if not os.path.exists(os.path.join(HERE, place)):
            sys.exit(f"run.py: {place}: no such folder or file below {HERE}")
        yield os.path.relpath(os.path.join(HERE, place), TOOLS).removesuffix(".py").replace(os.sep, ".") + "."


def main(options):
    began, groups, places = time.monotonic(), {}, tuple(wanted(options.places))
    for shared, name in sorted(set(classes(unittest.defaultTestLoader.discover(HERE, top_level_dir=TOOLS)))):
        if name.startswith(places or ""):
            groups.setdefault(shared, []).append(name)
    groups = sorted(groups.values(), key=len, reverse=True)  # what takes longest begins first
    names = [name for group in groups for name in group]
    if unittest.defaultTestLoader.errors:  # a file of tests that can't be read
        sys.exit("\n".join(unittest.defaultTestLoader.errors))
    adopt()
    signal.signal(signal.SIGTERM, lambda *_: sys.exit(128 + signal.SIGTERM))  # so that nothing is left either
    with compiled_once():
        results = results_of(groups, options.jobs)
    print("".join(text for _, _, text, _, _ in results), end="", file=sys.stderr)
    if options.times:
        for took, name in sorted(((result[4], name) for name, result in zip(names, results)), reverse=True):
            print(f"{took:7.2f} s  {name}", file=sys.stderr)
        print(f"{sum(result[4] for result in results):7.2f} s in all", file=sys.stderr)
    count, failed = (sum(numbers) for numbers in list(zip(*results))[:2])
    skipped = [why for *_, reasons, _ in results for why in reasons]
    for why in sorted(set(skipped)):
        print(f"skipped {skipped.count(why)}: {why}", file=sys.stderr)
    count -= len(skipped)
    print(f"Ran {count} tests in {time.monotonic() - began:.1f}s: {count - failed} passed, {failed} failed", file=sys.stderr)
    return int(failed > 0 or count == 0)


if __name__ == "__main__":
    sys.exit(main(options_of(sys.argv[1:])))
