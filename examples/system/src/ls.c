/* ls [-ltasdrugif] [name ..]: what is in directories, and what files are. */
#include <stdio.h>
#include <stdlib.h>
#include "say.h"
#include "paths.h"
#include "users.h"
#include "dates.h"
#include "sizes.h"

#define YEAR (365 * DAY)

struct item {
	char name[14];
	const char *path;		/* of an argument: its whole name */
	unsigned inode, mode;
	unsigned char links, owner, group;
	int blocks;
	long size, time;		/* of a device its number for the size */
};

static char flags[128], known[9], path[PATH], date[25];
static int known_owner = -1, many, status;
static long now;
static struct item *files;
static int count;
static struct stat found;

/* Room for so many files. */
static void make_room(unsigned most)
{
	free(files);
	count = 0;
	files = most > 65535U / sizeof *files ? NULL : malloc(most * sizeof *files);
	if (files == NULL) {
		say("ls: out of memory\n");
		exit(1);
	}
}

static struct item *add(void)
{
	memset(&files[count], 0, sizeof *files);
	return &files[count++];
}

static void fill(struct item *file)
{
	file->inode = found.inode;
	file->mode = found.mode;
	file->links = found.links;
	file->owner = found.owner;
	file->group = found.group;
	file->blocks = blocks_of(&found);
	file->size = found.mode & CHARACTER ? found.blocks[0] : bytes_of(&found);
	file->time = flags['u'] ? found.accessed : found.changed;
}

/* The order of two files: by name, or the later one first; and the other way. */
static int compare(const void *left, const void *right)
{
	const struct item *one = left, *two = right;
	int order;

	if (flags['t'] && one->time != two->time)
		order = one->time > two->time ? -1 : 1;
	else if (one->path)
		order = strcmp(one->path, two->path);
	else
		order = strncmp(one->name, two->name, 14);
	return flags['r'] ? -order : order;
}

static void show_mode(unsigned mode)
{
	static const char kinds[] = "-cdb", letters[] = "rwxrwxrwx";
	int at;

	putchar(kinds[mode >> 13 & 3]);
	for (at = 0; at < 9; at++)
		if (at == 2 && mode & 04000 || at == 5 && mode & 02000)
			putchar('s');
		else
			putchar(mode & 0400 >> at ? letters[at] : '-');
	putchar(mode & 01000 ? 't' : ' ');
}

/* The name of a user, or the number where there is none. */
static void show_owner(int owner)
{
	FILE *file;
	char *next;
	int number;

	if (owner != known_owner) {
		known_owner = owner;
		sprintf(known, "%d", owner);
		file = flags['g'] ? NULL : fopen("/etc/passwd", "r");
		while (file && (next = next_user(file, &number)))
			if (number == owner) {
				strncpy(known, next, 8);
				break;
			}
		if (file)
			fclose(file);
	}
	printf("%-6.6s", known);
}

static void show_long(struct item *file)
{
	show_mode(file->mode);
	printf("%2d ", file->links);
	show_owner(flags['g'] ? file->group : file->owner);
	if (file->mode & CHARACTER)
		printf("%3d,%3d", (int)(file->size >> 8) & 0377, (int)file->size & 0377);
	else
		printf("%7ld", file->size);
	date_text(date, file->time);
	if (now - file->time > YEAR)
		printf(" %.6s  %s ", date + 4, date + 20);
	else
		printf(" %.12s ", date + 4);
}

static void show(void)
{
	struct item *file;

	for (file = files; file < files + count; file++) {
		if (flags['i'])
			printf("%5u ", file->inode);
		if (flags['l'])
			show_long(file);
		if (flags['s'])
			printf("%4d ", file->blocks);
		if (file->path)
			puts(file->path);
		else
			printf("%.14s\n", file->name);
	}
}

static int unreadable(const char *name)
{
	say(name);
	say(" unreadable\n");
	return 1;
}

static int read_directory(const char *name)
{
	struct entry next;
	struct item *file;
	int from = open(name, 0), most;

	if (from < 0)
		return unreadable(name);
	fstat(from, &found);
	most = bytes_of(&found) / sizeof next;
	make_room(most);
	while (count < most && read(from, &next, sizeof next) == sizeof next) {
		if (next.inode == 0 || next.name[0] == '.' && !flags['a'])
			continue;
		file = add();
		memcpy(file->name, next.name, 14);
		file->inode = next.inode;
		if ((flags['l'] || flags['s'] || flags['t']) && join(path, name, next.name, 14) && stat(path, &found) == 0)
			fill(file);
	}
	close(from);
	return 0;
}

static int show_directory(const char *name)
{
	struct item *file;
	int total = 0;

	if (read_directory(name))
		return 1;
	if (many)
		printf("\n%s:\n", name);
	if (flags['l'] || flags['s']) {
		for (file = files; file < files + count; file++)
			total += file->blocks;
		printf("total %d\n", total);
	}
	if (!flags['f'])
		qsort(files, count, sizeof *files, compare);
	show();
	return 0;
}

/* The arguments that are shown themselves, and then the directories among them. */
static int show_names(char **names, int size)
{
	const char **directories = malloc(size * sizeof *directories);
	int at, listed = 0, failed = 0;
	struct item *file;

	make_room(size);
	for (at = 0; at < size; at++) {
		if (stat(names[at], &found) < 0) {
			say(names[at]);
			say(" not found\n");
			failed = 1;
			continue;
		}
		file = add();
		fill(file);
		file->path = names[at];
	}
	qsort(files, count, sizeof *files, compare);
	for (at = count, count = 0, size = at, at = 0; at < size; at++)
		if (flags['f'] || (files[at].mode & KIND) == DIRECTORY && !flags['d'])
			directories[listed++] = files[at].path;
		else
			files[count++] = files[at];
	show();
	for (at = 0; at < listed; at++)
		failed |= show_directory(directories[at]);
	return failed;
}

int main(int argc, char **argv)
{
	static char *here[] = { "." };
	char *flag;

	for (; argc > 1 && argv[1][0] == '-' && argv[1][1]; argc--, argv++)
		for (flag = argv[1] + 1; *flag; flag++)
			flags[*flag & 0177] = 1;
	if (flags['f']) {
		flags['l'] = flags['t'] = flags['s'] = flags['r'] = 0;
		flags['a'] = 1;
	}
	now = time();
	many = argc > 2;
	return argc > 1 ? show_names(argv + 1, argc - 1) : show_names(here, 1);
}
