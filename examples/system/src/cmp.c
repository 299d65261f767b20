/* cmp [-l] [-s] file1 file2: where two files differ first; with -l each byte that differs, with -s nothing but the status. */
#include <stdio.h>
#include "say.h"

static int each, silent;

static FILE *open_file(const char *name)
{
	FILE *file = strcmp(name, "-") == 0 ? stdin : fopen(name, "r");

	if (file == NULL && !silent) {
		say("cannot open ");
		say(name);
		say("\n");
	}
	return file;
}

static int compare(FILE *one, FILE *two, char **names)
{
	long place = 0, line = 1;
	int c, d, status = 0;

	for (;;) {
		c = getc(one);
		d = getc(two);
		place++;
		if (c == d) {
			if (c == EOF)
				return status;
			line += c == '\n';
			continue;
		}
		if (silent)
			return 1;
		if (c == EOF || d == EOF) {
			printf("EOF on %s\n", names[c != EOF]);
			return 1;
		}
		status = 1;
		if (!each) {
			printf("%s %s differ: char %ld, line %ld\n", names[0], names[1], place, line);
			return 1;
		}
		printf("%6ld %3o %3o\n", place, c, d);
	}
}

int main(int argc, char **argv)
{
	FILE *one, *two;

	for (; argc > 1 && argv[1][0] == '-' && argv[1][1]; argc--, argv++)
		if (strcmp(argv[1], "-l") == 0)
			each = 1;
		else if (strcmp(argv[1], "-s") == 0)
			silent = 1;
		else
			break;
	if (argc != 3) {
		say("arg count\n");
		return 2;
	}
	if ((one = open_file(argv[1])) == NULL || (two = open_file(argv[2])) == NULL)
		return 2;
	return compare(one, two, argv + 1);
}
