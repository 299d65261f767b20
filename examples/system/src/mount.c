/* mount [special directory]: the disk of the special file stands on the directory; what is mounted, without arguments. */
#include <errno.h>
#include "say.h"
#include "paths.h"
#include "mtab.h"

static struct mounted table;

static void put(const char *text, int most)
{
	int size = 0;

	while (size < most && text[size])
		size++;
	write(1, text, size);
}

static int show(void)
{
	int file = open(MTAB, 0);

	if (file < 0 || read(file, &table, sizeof table) != sizeof table || table.directory[0] == 0)
		return 0;
	put(table.special, 32);
	put(" on ", 4);
	put(table.directory, 32);
	put("\n", 1);
	return 0;
}

int main(int argc, char **argv)
{
	int file;

	if (argc == 1)
		return show();
	if (argc != 3) {
		say("arg count\n");
		return 1;
	}
	if (mount(argv[1], argv[2], 0) < 0)
		return complain("mount", mount_error());
	strncpy(table.directory, argv[2], 31);
	strncpy(table.special, last_part(argv[1]), 31);
	file = creat(MTAB, 0644);
	if (file >= 0)
		write(file, &table, sizeof table);
	return 0;
}
