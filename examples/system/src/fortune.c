/* fortune [file]: one line of /usr/lib/fortunes, or of the file, by chance. */
#include <stdio.h>
#include <unix.h>
#include "text.h"

static char line[MOST];

int main(int argc, char **argv)
{
	const char *name = argc > 1 ? argv[1] : "/usr/lib/fortunes";
	FILE *file = fopen(name, "r");
	long seed = time() * 31 + getpid();
	int lines = 0, wanted;

	if (file == NULL) {
		fprintf(stderr, "No fortunes today\n");
		return 1;
	}
	while (read_line(file, line))
		lines++;
	fclose(file);
	if (lines == 0)
		return 0;
	wanted = (unsigned long)(seed * 1103515245 + 12345) / 65536 % lines;
	file = fopen(name, "r");
	if (file == NULL)
		return 1;
	while (read_line(file, line) && wanted-- > 0)
		;
	put_line(stdout, line);
	return 0;
}
