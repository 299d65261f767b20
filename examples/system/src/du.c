/* du [-s] [-a] [name ..]: how many blocks the files of a directory have, and those of each directory below it. */
#include <stdio.h>
#include "say.h"
#include "paths.h"
#include "sizes.h"
#include "walk.h"

#define MOST 1000		/* files of several names that are remembered */

static int all, sum, failed;
static unsigned seen[MOST], disks[MOST];
static int many;
static long blocks;

/* Whether a file of several names was met before. */
static int counted(struct stat *status)
{
	int at;

	if (status->links < 2 || is_directory(status))
		return 0;
	for (at = 0; at < many; at++)
		if (seen[at] == status->inode && disks[at] == status->dev)
			return 1;
	if (many < MOST) {
		seen[many] = status->inode;
		disks[many++] = status->dev;
	}
	return 0;
}

/* The blocks of what path is, with all below it, are added to those of the directory. */
static void add(int length)
{
	struct stat status;
	long before = blocks;
	int directory;

	if (stat(path, &status) < 0) {
		failed = complain(path, "cannot stat");
		return;
	}
	if (counted(&status))
		return;
	directory = is_directory(&status);
	blocks = blocks_of(&status);
	if (directory)
		failed |= each_entry(length, add);
	if (!sum && (directory || all))
		printf("%ld\t%s\n", blocks, path);
	blocks += before;
}

static void tell(const char *name)
{
	int size = start_path(name);

	if (size < 0) {
		failed = 1;
		return;
	}
	blocks = 0;
	add(size);
	if (sum)
		printf("%ld\t%s\n", blocks, path);
}

int main(int argc, char **argv)
{
	for (; argc > 1 && argv[1][0] == '-'; argc--, argv++)
		if (strcmp(argv[1], "-s") == 0)
			sum = 1;
		else if (strcmp(argv[1], "-a") == 0)
			all = 1;
		else {
			say("usage: du [-s] [-a] [name ...]\n");
			return 1;
		}
	if (argc == 1)
		tell(".");
	while (--argc > 0)
		tell(*++argv);
	return failed;
}
