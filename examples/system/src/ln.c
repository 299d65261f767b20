/* ln name [other]: a second name for a file: the other one, or the last part of its own in this directory. */
#include "say.h"
#include "paths.h"

static struct stat status;

int main(int argc, char **argv)
{
	const char *other;

	if (argc < 2 || argc > 3) {
		say("arg count\n");
		return 1;
	}
	if (stat(argv[1], &status) == 0 && is_directory(&status)) {
		say("No directory link\n");
		return 1;
	}
	other = argc == 3 ? argv[2] : last_part(argv[1]);
	if (link(argv[1], other) < 0) {
		say("Can't link\n");
		return 1;
	}
	return 0;
}
