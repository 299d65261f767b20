/* kill [-signal] process ..: a signal to processes, 9 where none is said. */
#include <signal.h>
#include "say.h"
#include "number.h"

static int usage(void)
{
	say("usage: kill [ -signo ] pid ...\n");
	return 1;
}

int main(int argc, char **argv)
{
	int signo = SIGKILL, process, failed = 0;

	if (argc > 1 && argv[1][0] == '-') {
		signo = number(argv[1] + 1, 10);
		if (signo < 0)
			return usage();
		argc--;
		argv++;
	}
	if (argc < 2)
		return usage();
	while (--argc > 0) {
		process = number(*++argv, 10);
		if (process < 0 || kill(process, signo) < 0)
			failed = complain(*argv, "not found");
	}
	return failed;
}
