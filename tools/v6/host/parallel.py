"""Work that is parted among processes of their own, since threads of Python take turns. What they find is taken in order."""
import marshal
import os
import select
import signal
import struct
import time
import traceback

from v6.host.files import INTERRUPTS, uninterrupted

NUMBER = struct.Struct("<I")  # of a piece of work, or of the bytes of an answer
MOST = 1024  # pieces: each pipe has room for their numbers, also where a host gives but a page
PATIENCE, MOMENT = 60, 0.001  # seconds until one that is told to end is ended, and between two looks at it
WELL, KNOWN, UNKNOWN = range(3)  # how a piece has ended


def in_order(does, count, workers, begins, known):
    """What `does` gives for 0, 1, 2 and so on, as many at a time as there are `workers`, each of which `begins` with its own number, which
    gives what its end is told. An error of the class `known` is one here. Whoever goes no further ends what is at work."""
    jobs, to = os.pipe()
    os.write(to, b"".join(map(NUMBER.pack, range(min(count, MOST)))))
    os.close(to)
    sources = {}
    try:
        for number in range(min(workers, count)):
            begin(sources, lambda source, answers: work(does, jobs, answers, (*sources, source), lambda: begins(number), known))
        yield from taken(sources, min(count, MOST), known)
    finally:
        os.close(jobs)
        end(sources)
    for number in range(MOST, count):
        yield does(number)


def begin(sources, does):
    """Begins a process, and puts down where its answers come from."""
    source, answers = os.pipe()
    try:
        with uninterrupted():  # a process that has just begun would do what this one does at an interrupt
            child = os.fork()
            if not child:
                does(source, answers)
            sources[source] = child
    finally:
        os.close(answers)
        if source not in sources:
            os.close(source)


def end(sources):
    """Ends the processes, and waits until they are gone."""
    for child in sources.values():
        os.kill(child, signal.SIGTERM)
    for source in sources:
        os.close(source)  # so that none waits for a reader
    late = time.monotonic() + PATIENCE
    for child in sources.values():
        while not os.waitpid(child, os.WNOHANG)[0]:
            if time.monotonic() > late:
                os.kill(child, signal.SIGKILL)
            time.sleep(MOMENT)


def taken(sources, count, known):
    """The answers of the processes, in order."""
    found, rest = {}, set(sources)
    for number in range(count):
        while number not in found:
            for source in select.select(list(rest), [], [])[0] if rest else ended():
                answer = read(source)
                if answer is None:
                    rest.discard(source)
                else:
                    found[answer[0]] = answer[1:]
        kind, value = found.pop(number)
        if kind != WELL:
            raise known(value) if kind == KNOWN else RuntimeError(value)
        yield value


def ended():
    raise RuntimeError("a process that was at work has ended")


def read(source):
    """The next answer of a process, or None where it has ended, also in the middle of one."""
    head = whole(source, NUMBER.size)
    (size,) = NUMBER.unpack(head) if len(head) == NUMBER.size else (0,)
    data = whole(source, size)
    return marshal.loads(data) if size and len(data) == size else None


def whole(source, size):
    data = b""
    while len(data) < size and (more := os.read(source, size - len(data))):
        data += more
    return data


def work(does, jobs, answers, sources, begins, known):
    """What a process does; it goes no further than this. Its end is told by a signal, which is held back until it can be heard, and is
    heard once; another interrupt ends it as the host does."""
    def told(*_):
        signal.signal(signal.SIGTERM, signal.SIG_IGN)
        stop()

    try:
        for source in sources:
            os.close(source)
        for number in INTERRUPTS:
            signal.signal(number, signal.SIG_DFL)
        stop = begins()
        signal.signal(signal.SIGTERM, told)
        signal.pthread_sigmask(signal.SIG_UNBLOCK, INTERRUPTS)
        while job := os.read(jobs, NUMBER.size):
            (number,) = NUMBER.unpack(job)
            try:
                answer = number, WELL, does(number)
            except known as error:
                answer = number, KNOWN, str(error)
            except Exception:
                answer = number, UNKNOWN, traceback.format_exc()
            data = marshal.dumps(answer)
            data = NUMBER.pack(len(data)) + data
            while data:
                data = data[os.write(answers, data) :]
        signal.pthread_sigmask(signal.SIG_BLOCK, INTERRUPTS)  # nothing is raised below
    finally:
        os._exit(0)
