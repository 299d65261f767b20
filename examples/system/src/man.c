/* man [section] title ..: the pages of /usr/man. */
#include <stdio.h>
#include <string.h>
#include <unix.h>

static char name[64];
static int failed;

/* Copies the page to the standard output; whether it is there. */
static int show(const char *title, int section)
{
	static char buffer[512];
	int file, size;

	if (strlen(title) > 40)
		return 0;
	sprintf(name, "/usr/man/%s.%c", title, section);
	file = open(name, 0);
	if (file < 0)
		return 0;
	while ((size = read(file, buffer, sizeof buffer)) > 0)
		if (write(1, buffer, size) != size)
			failed = 1;
	close(file);
	return 1;
}

int main(int argc, char **argv)
{
	int at = 1, section = 0, any, found, status = 0;

	if (argc > 1 && argv[1][1] == 0 && argv[1][0] >= '1' && argv[1][0] <= '8')
		section = argv[at++][0];
	if (at == argc) {
		fprintf(stderr, "usage: man [section] title ..\n");
		return 1;
	}
	for (; at < argc; at++) {
		found = 0;
		for (any = '1'; any <= '8'; any++)
			if (section == 0 || any == section)
				found |= show(argv[at], any);
		if (!found) {
			fprintf(stderr, "man: %s not found\n", argv[at]);
			status = 1;
		}
	}
	if (failed)
		fprintf(stderr, "man: write error\n");
	return status | failed;
}
