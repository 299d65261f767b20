/* grep [-bcnv] pattern [file ..]: the lines in which a pattern of ed(I) is found. */
#include <stdio.h>
#include <string.h>
#include "expressions.h"
#include "text.h"
#include "written.h"

static int inverted, numbered, counted, blocks;
static char line[MOST];

static void name_it(const char *name)
{
	if (name)
		printf("%s:", name);
}

/* Shows the lines of a file that are asked for, and gives whether there are any. */
static int search(FILE *file, const char *name)
{
	int number = 0, count = 0;
	long bytes = 0, at;

	for (; at = bytes, read_line(file, line); bytes += strlen(line) + 1) {
		number++;
		if (found(line, 0) == inverted)
			continue;
		count++;
		if (counted)
			continue;
		name_it(name);
		if (blocks)
			printf("%ld:", at / 512);
		if (numbered)
			printf("%d:", number);
		put_line(stdout, line);
	}
	if (counted) {
		name_it(name);
		printf("%d\n", count);
	}
	return count > 0;
}

static int usage(void)
{
	fprintf(stderr, "usage: grep [-bcnv] pattern [file ..]\n");
	return 2;
}

static int option(const char *text)
{
	while (*++text)
		switch (*text) {
		case 'v': inverted = 1; break;
		case 'n': numbered = 1; break;
		case 'c': counted = 1; break;
		case 'b': blocks = 1; break;
		default: return 0;
		}
	return 1;
}

int main(int argc, char **argv)
{
	FILE *file;
	int at, several, some = 0, status = 0;

	for (at = 1; at < argc && argv[at][0] == '-'; at++)
		if (!option(argv[at]))
			return usage();
	if (at == argc)
		return usage();
	if (read_pattern(argv[at], 0) == 0) {
		fprintf(stderr, "grep: RE error\n");
		return 2;
	}
	at++;
	several = argc - at > 1;
	if (at == argc)
		some = search(stdin, NULL);
	for (; at < argc; at++) {
		file = open_file("grep", argv[at]);
		if (file == NULL) {
			status = 2;
			continue;
		}
		some |= search(file, several ? argv[at] : NULL);
		fclose(file);
	}
	return written("grep", stdout, status ? status : !some, 2);
}
