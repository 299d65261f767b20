/* chown owner file ..: the files belong to this user, a name of the file of passwords or a number. */
#include "say.h"
#include "number.h"
#include "users.h"

static struct stat status;

int main(int argc, char **argv)
{
	int owner, failed = 0;

	if (argc < 3) {
		say("usage: chown owner file ...\n");
		return 1;
	}
	owner = number(argv[1], 10);
	if (owner < 0)
		owner = user_number(argv[1]);
	if (owner < 0 || owner > 255)
		return complain(argv[1], "unknown user");
	for (argv += 2; argc-- > 2; argv++)
		if (stat(*argv, &status) < 0 || chown(*argv, owner | status.group << 8) < 0)
			failed = complain(*argv, "can't change");
	return failed;
}
