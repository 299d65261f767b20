"""The first fault of an output ends a run, and not the end of its slots."""
import resource
import subprocess

from tests.common import V6, Case, parted, with_init

# Each turn is a call, or a branch back to it: the log has more bytes than a file's buffer (2,048) after some hundred slots.
CALLS = b"1:\tsys\tgetpid\n\tbr\t1b\n"
SLOTS = 200_000_000  # as many as a script may ask for: more than ten seconds of a processor
LIMIT = 2  # seconds of a processor. On a quiet machine each run takes less than one


class FullLog(Case):
    def test_a_full_device(self):
        """With a tick after each slot, after each thousandth, and with none."""
        self.put("image", with_init(CALLS, None))
        for clock in ("clock 1\n", "clock 1000\n", ""):
            with self.subTest(clock):
                self.put("script", f"{clock}run {SLOTS}\n".encode())
                files = map(self.path, ("script", "term"))
                words = [*parted(V6), "run", self.path("image"), "1200", *files, "/dev/full", self.path("final")]
                before = resource.getrusage(resource.RUSAGE_CHILDREN)
                done = subprocess.run(words, stdout=subprocess.PIPE, stderr=subprocess.STDOUT, check=False)
                after = resource.getrusage(resource.RUSAGE_CHILDREN)
                self.assertEqual((done.returncode, done.stdout), (3, b"write fault: log\n"))
                self.assertLess(after.ru_utime + after.ru_stime - before.ru_utime - before.ru_stime, LIMIT)
