/* nice [-number] command [argument ..]: a command of less priority, or for user 0 and a number below 0 of more. */
#include <stdlib.h>
#include "say.h"
#include "paths.h"
#include "run.h"

int main(int argc, char **argv)
{
	int number = 4;

	if (argc > 1 && argv[1][0] == '-') {
		number = atoi(argv[1] + 1);
		argc--;
		argv++;
	}
	if (argc < 2) {
		say("usage: nice [ -n ] command\n");
		return 1;
	}
	nice(number);
	argv[argc] = 0;
	run(argv + 1);
	return complain(argv[1], "not found");
}
