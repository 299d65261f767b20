/* mv old new: a file has another name, or is in the directory `new`; a directory is renamed among its fellows. The command has
 * the set-uid bit, for directories; for all else it is the user's. */
#include "say.h"
#include "paths.h"
#include "modes.h"
#include "answer.h"

static struct stat from, to;
static char path[PATH], parent[PATH], parent2[PATH], buffer[512];

static int fail(const char *text)
{
	say(text);
	say("\n");
	return 1;
}

/* A directory: both names are in one directory, in which the user may write. */
static int rename_directory(const char *old, const char *new)
{
	const char *last = last_part(old), *above, *above2;

	if (stat(new, &to) == 0)
		return fail("Directory exists");
	if (from.inode == 1)
		return fail("Cannot rename a root");
	if (strcmp(last, ".") == 0 || strcmp(last, "..") == 0)
		return fail("Cannot rename . or ..");
	above = directory_of(parent, old);
	above2 = directory_of(parent2, new);
	if (stat(above, &from) < 0 || stat(above2, &to) < 0 || from.dev != to.dev || from.inode != to.inode)
		return fail("Directory rename only");
	if (!may_enter(above))
		return fail("No write access");
	if (link(old, new) < 0)
		return fail("Cannot make the new name");
	if (unlink(old) < 0) {
		unlink(new);
		return fail("Cannot remove the old name");
	}
	return 0;
}

/* A file that can't get a second name, since that is on the other disk. */
static int copy(const char *old, const char *new)
{
	int size, source = open(old, 0), target;

	if (source < 0)
		return fail("Cannot open the old file");
	target = creat(new, from.mode);
	if (target < 0)
		return fail("Cannot make the new name");
	while ((size = read(source, buffer, sizeof buffer)) > 0)
		if (write(target, buffer, size) != size) {
			unlink(new);
			return fail("Write error");
		}
	if (size < 0) {
		unlink(new);
		return fail("Read error");
	}
	close(target);
	return 0;
}

static int move(const char *old, const char *new)
{
	if (stat(new, &to) == 0) {
		if (is_directory(&to))
			return fail("Directory exists");
		if (to.dev == from.dev && to.inode == from.inode)
			return fail("Files are identical");
		if (!may(&to, 2) && asks()) {
			show_mode(new, to.mode);
			if (!yes())
				return 1;
		}
		if (unlink(new) < 0)
			return fail("Cannot remove the new name's file");
	}
	if (link(old, new) < 0) {
		if (stat(directory_of(parent, new), &to) < 0 || to.dev == from.dev)
			return fail("Cannot make the new name");
		if (copy(old, new))
			return 1;
	}
	return unlink(old) < 0 ? fail("Cannot remove the old name") : 0;
}

int main(int argc, char **argv)
{
	const char *name;

	if (argc != 3)
		return fail("Usage: mv name1 name2");
	if (stat(trimmed(argv[1]), &from) < 0)
		return fail("Source file non-existent");
	name = trimmed(argv[2]);
	if (stat(name, &to) == 0 && is_directory(&to)) {
		if (!join(path, name, last_part(argv[1]), 14))
			return fail("Name too long");
		name = path;
	}
	if (is_directory(&from))
		return rename_directory(argv[1], name);
	setuid(getuid() & 0377);
	return move(argv[1], name);
}
