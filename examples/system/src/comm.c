/* comm [-123] file1 file2: of two sorted files the lines of the first alone, of the second alone, and of both, in three
 * columns. The columns of the option aren't shown. */
#include <stdio.h>
#include "say.h"

#define MOST 1024

static char one[MOST], two[MOST];
static int hidden[4];

static FILE *open_file(const char *name)
{
	FILE *file = strcmp(name, "-") == 0 ? stdin : fopen(name, "r");

	if (file == NULL) {
		say("cannot open ");
		say(name);
		say("\n");
		exit(1);
	}
	return file;
}

/* A line without its end; 0 at the end of the file. A longer one is cut. */
static int take(char *line, FILE *file)
{
	int c, size = 0;

	while ((c = getc(file)) != EOF && c != '\n')
		if (size < MOST - 1)
			line[size++] = c;
	line[size] = 0;
	return c != EOF || size > 0;
}

/* A line in its column; a tab stands for each column before it that is shown. */
static void show(const char *line, int column)
{
	int before;

	if (hidden[column])
		return;
	for (before = 1; before < column; before++)
		if (!hidden[before])
			putchar('\t');
	puts(line);
}

static void merge(FILE *first, FILE *second)
{
	int left = take(one, first), right = take(two, second), order;

	while (left || right) {
		order = !left ? 1 : !right ? -1 : strcmp(one, two);
		show(order > 0 ? two : one, order < 0 ? 1 : order > 0 ? 2 : 3);
		if (order <= 0)
			left = take(one, first);
		if (order >= 0)
			right = take(two, second);
	}
}

int main(int argc, char **argv)
{
	FILE *first, *second;
	char *flag;

	if (argc > 1 && argv[1][0] == '-' && argv[1][1]) {
		for (flag = argv[1] + 1; *flag; flag++) {
			if (*flag < '1' || *flag > '3') {
				say("illegal option\n");
				return 1;
			}
			hidden[*flag - '0'] = 1;
		}
		argc--;
		argv++;
	}
	if (argc != 3) {
		say("arg count\n");
		return 1;
	}
	first = open_file(argv[1]);
	second = open_file(argv[2]);
	merge(first, second);
	return 0;
}
