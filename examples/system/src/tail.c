/* tail [+N|-N][lbc] [file]: the end of a file, from a place on that is counted in lines, blocks or characters. */
#include <ctype.h>
#include <stdio.h>
#include <stdlib.h>
#include "fast.h"
#include "written.h"

#define KEPT 4096

static char kept[KEPT];		/* the last bytes that were read, round and round */
static int end;			/* where the next one goes */

static void from_start(FILE *file, long count, int unit)
{
	int c;

	if (unit == 'b')
		count = count > 0 ? (count - 1) * 512 + 1 : 0;
	while (count > 1 && (c = fast_getc(file)) != EOF)
		if (unit != 'l' || c == '\n')
			count--;
	while ((c = fast_getc(file)) != EOF)
		fast_putc(c, stdout);
}

/* The last of what is kept: so many lines or bytes. */
static void from_end(FILE *file, long count, int unit)
{
	int c, full = 0, size, at;
	long lines = 0;

	while ((c = fast_getc(file)) != EOF) {
		kept[end++] = c;
		if (end == KEPT) {
			full = 1;
			end = 0;
		}
	}
	size = full ? KEPT : end;
	if (unit == 'b')
		count *= 512;
	if (unit != 'l')
		at = size > count ? (int)count : size;
	else
		for (at = 0; count > 0 && at < size; at++)
			if (at > 0 && kept[(end - at - 1) & (KEPT - 1)] == '\n' && ++lines == count)
				break;
	for (; at > 0; at--)
		fast_putc(kept[(end - at) & (KEPT - 1)], stdout);
}

int main(int argc, char **argv)
{
	FILE *file = stdin;
	long count = 10;
	int at = 1, unit = 'l', forward = 0;
	char *text;

	if (argc > 1 && (argv[1][0] == '+' || argv[1][0] == '-')) {
		forward = argv[1][0] == '+';
		text = argv[1] + 1;
		if (isdigit(*text))
			count = atol(text);
		while (isdigit(*text))
			text++;
		if (*text == 'l' || *text == 'b' || *text == 'c')
			unit = *text++;
		if (*text) {
			fprintf(stderr, "usage: tail [+N|-N][lbc] [file]\n");
			return 1;
		}
		at++;
	}
	if (at < argc && (file = fopen(argv[at], "r")) == NULL) {
		fprintf(stderr, "tail: can't open %s\n", argv[at]);
		return 1;
	}
	if (forward)
		from_start(file, count, unit);
	else
		from_end(file, count, unit);
	return written("tail", stdout, 0, 1);
}
