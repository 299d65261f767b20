/* mkdir name ..: directories of mode 777, each with its two entries. Only user 0 may make a directory, so the command has the
 * set-uid bit, and looks itself whether the user may. */
#include "say.h"
#include "paths.h"
#include "modes.h"

static struct stat status;
static char parent[PATH], entry[PATH];

/* Whether the directory stands, with its entries and its owner. */
static int made(const char *name)
{
	const char *above = directory_of(parent, name);

	if (!may_enter(above) || stat(name, &status) == 0)
		return 0;
	if (!join(entry, name, ".", 14) || mknod(name, DIRECTORY | 0777, 0) < 0)
		return 0;
	if (link(name, entry) == 0) {
		join(entry, name, "..", 14);
		if (link(above, entry) == 0) {
			chown(name, (getuid() & 0377) | getgid() << 8);
			return 1;
		}
		join(entry, name, ".", 14);
		unlink(entry);
	}
	unlink(name);
	return 0;
}

int main(int argc, char **argv)
{
	int failed = 0;

	if (argc < 2) {
		say("arg count\n");
		return 1;
	}
	while (--argc > 0)
		if (!made(trimmed(*++argv)))
			failed = complain(*argv, "cannot make directory");
	return failed;
}
