/* mknod name c|b major minor: a special file. */
#include "say.h"
#include "number.h"

static int fail(const char *text)
{
	say(text);
	say("\n");
	return 1;
}

int main(int argc, char **argv)
{
	int major, minor;

	if (argc != 5)
		return fail("arg count");
	if (strcmp(argv[2], "b") != 0 && strcmp(argv[2], "c") != 0)
		return fail("usage: mknod name b/c major minor");
	major = number(argv[3], 10);
	minor = number(argv[4], 10);
	if (major < 0 || major > 255 || minor < 0 || minor > 255)
		return fail("bad number");
	if (mknod(argv[1], *argv[2] == 'b' ? 060666 : 020666, major << 8 | minor) < 0)
		return complain(argv[1], "cannot make the special file");
	return 0;
}
