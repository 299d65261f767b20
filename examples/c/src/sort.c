/* sort [-r] [-n] [-u] [file ..]: the lines in the order of their bytes; -n by the number that they begin with, -r backwards, -u
 * each once. All of them must have room in memory. */
#include <stdio.h>
#include <stdlib.h>
#include <string.h>

#define MOST 512		/* of a line */
#define LINES 3000

static char *lines[LINES];
static int count, backwards, numbers, once;

static int compare(const void *one, const void *other)
{
	const char *left = *(char **)one, *right = *(char **)other;
	long by;
	int order = 0;

	if (numbers) {
		by = atol(left) - atol(right);
		order = by < 0 ? -1 : by > 0;
	}
	if (order == 0)
		order = strcmp(left, right);
	return backwards ? -order : order;
}

static void stop(const char *why, const char *name)
{
	fprintf(stderr, "sort: %s%s\n", why, name);
	exit(1);
}

static void take(FILE *file)
{
	char line[MOST], *kept;
	int size;

	while (fgets(line, MOST, file) != NULL) {
		size = strlen(line);
		if (size && line[size - 1] == '\n')
			line[size - 1] = 0;
		kept = count < LINES ? malloc(size + 1) : NULL;
		if (kept == NULL)
			stop("too many lines", "");
		strcpy(kept, line);
		lines[count++] = kept;
	}
}

int main(int argc, char **argv)
{
	FILE *file;
	int at;

	for (; argc > 1 && argv[1][0] == '-' && argv[1][1]; argc--, argv++)
		for (at = 1; argv[1][at]; at++)
			switch (argv[1][at]) {
			case 'r':
				backwards = 1;
				break;
			case 'n':
				numbers = 1;
				break;
			case 'u':
				once = 1;
				break;
			default:
				stop("no such option: ", argv[1]);
			}
	if (argc < 2)
		take(stdin);
	for (at = 1; at < argc; at++) {
		file = fopen(argv[at], "r");
		if (file == NULL)
			stop("can't open ", argv[at]);
		take(file);
		fclose(file);
	}
	qsort(lines, count, sizeof(char *), compare);
	for (at = 0; at < count; at++)
		if (!once || at == 0 || strcmp(lines[at], lines[at - 1]) != 0)
			puts(lines[at]);
	return 0;
}
