/* rm [-f] [-r] name ..: the names go. */
#include "say.h"
#include "paths.h"
#include "modes.h"
#include "answer.h"
#include "walk.h"

static int force, deep, failed;

/* What path is goes; of a directory with -r all that is in it and below it, and the directories stay. */
static void remove_path(int length)
{
	struct stat status;

	if (stat(path, &status) < 0)
		failed = complain(path, "non existent");
	else if (is_directory(&status))
		failed |= deep ? each_entry(length, remove_path) : complain(path, "directory");
	else {
		if (!force && !may(&status, 2) && asks()) {
			show_mode(path, status.mode);
			if (!yes())
				return;
		}
		if (unlink(path) < 0)
			failed = complain(path, "not removed");
	}
}

int main(int argc, char **argv)
{
	char *flag;
	int size;

	for (; argc > 1 && argv[1][0] == '-' && argv[1][1]; argc--, argv++)
		for (flag = argv[1] + 1; *flag; flag++)
			if (*flag == 'f')
				force = 1;
			else if (*flag == 'r')
				deep = 1;
			else {
				say("usage: rm [-f] [-r] file ...\n");
				return 1;
			}
	while (--argc > 0) {
		size = start_path(*++argv);
		if (size < 0)
			failed = 1;
		else
			remove_path(size);
	}
	return failed;
}
