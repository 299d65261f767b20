"""The examples: each makes logs, and each of these is lawful."""
import os
import subprocess

from tests.common import TOP, V6, Case, v6

EXAMPLES = os.path.join(TOP, "examples")
# the program, and a copy of each log that a run writes, by the number of its process
KEEPER = f"""\
#!/bin/sh
{V6} "$@"
status=$?
case $1 in run | run8 | run2) cp "$6" "$LOGS/$$" ;; esac
exit $status
"""


class Examples(Case):
    def test_their_logs(self):
        """Those of all runs that the run.sh of each example makes, by the auditor."""
        keeper = self.put("keeper", KEEPER.encode())
        os.chmod(keeper, 0o755)
        for name in sorted(os.listdir(EXAMPLES)):
            logs = self.path(name)
            os.mkdir(logs)
            environment = {**os.environ, "V6": keeper, "LOGS": logs}
            done = subprocess.run([os.path.join(EXAMPLES, name, "run.sh")], env=environment, capture_output=True)
            self.assertEqual(done.returncode, 0, name)
            self.assertNotEqual(os.listdir(logs), [], name)
            for log in os.listdir(logs):
                status, said = v6("audit", os.path.join(logs, log))
                self.assertEqual((status, said.split(":")[0]), (0, "lawful"), (name, said))
