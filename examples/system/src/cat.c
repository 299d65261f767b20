/* cat [name ..]: the files one after the other; the standard input without a name, and for `-`. */
#include "say.h"

static char buffer[512];

/* What is left of a file; 1 where it can't be written. */
static int copy(int file)
{
	int size;

	while ((size = read(file, buffer, sizeof buffer)) > 0)
		if (write(1, buffer, size) != size)
			return complain("cat", "write error");
	return 0;
}

int main(int argc, char **argv)
{
	int file, failed = 0;

	if (argc == 1)
		return copy(0);
	while (--argc > 0 && !failed) {
		if (strcmp(*++argv, "-") == 0) {
			failed = copy(0);
			continue;
		}
		file = open(*argv, 0);
		if (file < 0)
			continue;
		failed = copy(file);
		close(file);
	}
	return failed;
}
