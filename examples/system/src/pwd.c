/* pwd: the name of the current directory. It is found upwards: in each directory's parent the entry that leads to it. */
#include "say.h"
#include "paths.h"

#define MOST 512

static struct stat here, above, found;
static struct entry next;
static char text[MOST], mounted[32], name[PATH];
static char *at = text + MOST - 1;

static int fail(const char *why)
{
	say("pwd: ");
	say(why);
	say("\n");
	return 1;
}

/* A name comes before what there is. */
static int put(const char *name, int most)
{
	int size = 0;

	while (size < most && name[size])
		size++;
	if (at - text <= size)
		return 0;
	at -= size;
	memcpy(at, name, size);
	return 1;
}

/* The entry of .. that leads to this directory; 0 where there is none. stat(II) tells the disk and the inode of each file. */
static int find_name(void)
{
	int file = open("..", 0);

	if (file < 0)
		return 0;
	while (read(file, &next, sizeof next) == sizeof next) {
		if (next.inode == 0)
			continue;
		join(name, "..", next.name, 14);
		if (stat(name, &found) == 0 && found.dev == here.dev && found.inode == here.inode) {
			close(file);
			return 1;
		}
	}
	close(file);
	return 0;
}

/* The root of the second disk is its own parent: where it is mounted stands in /etc/mtab. */
static int put_mounted(void)
{
	int file = open("/etc/mtab", 0);

	if (file < 0 || read(file, mounted, sizeof mounted) != sizeof mounted || mounted[0] != '/')
		return 0;
	return put(mounted, sizeof mounted);
}

int main(void)
{
	for (;;) {
		if (stat(".", &here) < 0 || stat("..", &above) < 0)
			return fail("cannot stat .");
		if (here.dev == above.dev && here.inode == above.inode)
			break;
		if (!find_name())
			return fail("read error in ..");
		if (!put(next.name, 14) || !put("/", 1))
			return fail("name too long");
		if (chdir("..") < 0)
			return fail("cannot go to ..");
	}
	if (here.dev && !put_mounted())
		return fail("mounted at a place that /etc/mtab doesn't tell");
	if (*at == 0)
		put("/", 1);
	text[MOST - 1] = '\n';
	write(1, at, text + MOST - at);
	return 0;
}
