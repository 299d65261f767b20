/* cp old new: a copy of the file; in `new` where that is a directory. */
#include "say.h"
#include "paths.h"

static char buffer[512], path[PATH];
static struct stat from, to;

static int fail(const char *text)
{
	say(text);
	say("\n");
	return 1;
}

static int copy(int old, int new)
{
	int size;

	while ((size = read(old, buffer, sizeof buffer)) > 0)
		if (write(new, buffer, size) != size)
			return fail("Write error.");
	return size < 0 ? fail("Read error") : 0;
}

int main(int argc, char **argv)
{
	const char *name;
	int old, new;

	if (argc != 3)
		return fail("Usage: cp oldfile newfile");
	old = open(argv[1], 0);
	if (old < 0)
		return fail("Cannot open old file.");
	fstat(old, &from);
	name = argv[2];
	if (stat(name, &to) == 0 && is_directory(&to)) {
		if (!join(path, name, last_part(argv[1]), 14))
			return fail("Can't create new file.");
		name = path;
	}
	if (stat(name, &to) == 0 && to.dev == from.dev && to.inode == from.inode)
		return fail("Copying file to itself.");
	new = creat(name, from.mode);
	if (new < 0)
		return fail("Can't create new file.");
	return copy(old, new);
}
