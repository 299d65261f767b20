/* rmdir name ..: directories that have no entries but their own two go. The command has the set-uid bit, as mkdir. */
#include "say.h"
#include "paths.h"
#include "modes.h"

static struct stat status;
static struct entry next;
static char parent[PATH], entry[PATH];

/* Whether a directory has no entries but . and .. */
static int is_empty(const char *name)
{
	int file = open(name, 0), empty = 1;

	if (file < 0)
		return 0;
	while (empty && read(file, &next, sizeof next) == sizeof next)
		if (next.inode && strncmp(next.name, ".", 14) != 0 && strncmp(next.name, "..", 14) != 0)
			empty = 0;
	close(file);
	return empty;
}

static int removed(const char *name)
{
	join(entry, name, ".", 14);
	if (unlink(entry) < 0)
		return 0;
	if (join(entry, name, "..", 14) && unlink(entry) == 0 && unlink(name) == 0)
		return 1;
	return 0;
}

static int remove_directory(const char *name)
{
	const char *last = last_part(name);

	if (stat(name, &status) < 0)
		return complain(name, "non existent");
	if (!is_directory(&status))
		return complain(name, "not a directory");
	if (strcmp(last, ".") == 0 || strcmp(last, "..") == 0 || status.inode == 1)	/* a root, which may cover a directory */
		return complain(name, "cannot remove");
	if (!is_empty(name))
		return complain(name, "not empty");
	if (!may_enter(directory_of(parent, name)) || !removed(name))
		return complain(name, "not removed");
	return 0;
}

int main(int argc, char **argv)
{
	int failed = 0;

	if (argc < 2) {
		say("arg count\n");
		return 1;
	}
	while (--argc > 0)
		failed |= remove_directory(trimmed(*++argv));
	return failed;
}
