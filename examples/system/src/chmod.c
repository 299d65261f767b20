/* chmod mode file ..: the permissions, by an octal number. */
#include "say.h"
#include "number.h"

int main(int argc, char **argv)
{
	int mode, failed = 0;

	if (argc < 3 || (mode = number(argv[1], 8)) < 0) {
		say("usage: chmod mode file ...\n");
		return 1;
	}
	for (argv += 2; argc-- > 2; argv++)
		if (chmod(*argv, mode) < 0)
			failed = complain(*argv, "can't change");
	return failed;
}
